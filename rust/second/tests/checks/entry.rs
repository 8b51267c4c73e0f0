//! Entry, open, offer: the table's rows, the check orders, the byte form, both walks on one buffer, and lists of calls.

use second::entry::{ENTRY_BYTES, LAST_EDITION};
use second::{entry_offer, entry_open, entry_verdict, Entry};

use crate::definitions;
use crate::faulty::{dead, faulty};
use crate::random::Random;
use crate::worked::{everything, f, g, h, j, Plain};

/// Kind, forward count, back count, word length and walk of offer's number.
type Parts = (u64, u64, u64, u64, u64);

fn parts(number: u64) -> Parts {
    (
        number & 0xFF,
        number >> 8 & 0xFFFF,
        number >> 24 & 0xFFFF,
        number >> 40 & 0xFFFF,
        number >> 56,
    )
}

/// The bytes of an entry that was just opened with the automaton.
fn opened(automaton: &Plain) -> [u8; ENTRY_BYTES] {
    let mut entry = [0; ENTRY_BYTES];
    assert_eq!(entry_open(&mut entry, &automaton.file()), 0);
    entry
}

/// The byte form, written from its description.
fn bytes(automaton: &Plain, edition: u32, first_states: usize) -> Vec<u8> {
    let mut bytes = vec![0; 2061];
    bytes[0] = 1;
    bytes[1] = automaton.states as u8;
    bytes[2] = automaton.letters as u8;
    bytes[3] = automaton.initial as u8;
    bytes[4] = first_states as u8;
    for place in 0..4 {
        bytes[5 + place] = (edition >> (8 * place)) as u8;
    }
    for &q in &automaton.accepting {
        bytes[9 + q / 8] |= 1 << (q % 8);
    }
    for &(q, a, r) in &automaton.transitions {
        bytes[13 + (q * 16 + a) * 4 + r / 8] |= 1 << (r % 8);
    }
    bytes
}

/// Offers with room for 100 slots and 10 letters.
fn offer(entry: &mut [u8], automaton: &Plain, bound: u64) -> Parts {
    parts(entry_offer(
        entry,
        &automaton.file(),
        bound,
        &mut [0; 4000],
        &mut [0; 10],
    ))
}

#[test]
fn open_stores_edition_0() {
    for automaton in [f(), g(), h(), j()] {
        assert_eq!(opened(&automaton).to_vec(), bytes(&automaton, 0, automaton.states));
    }
}

#[test]
fn g_replaces_f_at_bound_1() {
    let mut entry = opened(&f());
    assert_eq!(offer(&mut entry, &g(), 1), (0, 5, 8, 0, 0));
    assert_eq!(entry.to_vec(), bytes(&g(), 1, 4));
    assert_eq!(offer(&mut entry, &g(), 1), (114, 0, 0, 0, 0));
    assert_eq!(offer(&mut entry, &f(), 1), (114, 0, 0, 0, 0));
    assert_eq!(entry.to_vec(), bytes(&g(), 1, 4));
}

#[test]
fn the_back_walk_turns_g_down_at_bound_0() {
    let mut entry = opened(&f());
    let mut word = [0xEE; 3];
    let number = entry_offer(&mut entry, &g().file(), 0, &mut [0; 4000], &mut word);
    assert_eq!(number, 2 + (4 << 8) + (2 << 24) + (1 << 40));
    assert_eq!(word, [0, 0xEE, 0xEE]);
    assert_eq!(entry, opened(&f()));
}

#[test]
fn the_forward_walk_turns_down_what_loses_a_word() {
    let two = Plain {
        states: 2,
        letters: 2,
        initial: 0,
        accepting: vec![0],
        transitions: vec![(0, 0, 1), (0, 1, 1), (1, 0, 0), (1, 1, 0)],
    };
    let mut one = everything(2);
    one.transitions.pop();
    let mut entry = opened(&two);
    let mut word = [0xEE; 2];
    let number = entry_offer(&mut entry, &one.file(), 0, &mut [0; 80], &mut word);
    assert_eq!(number, 1 + (2 << 8) + (1 << 40));
    assert_eq!(word, [1, 0xEE]);
    let number = entry_offer(&mut entry, &one.file(), 0, &mut [0; 80], &mut []);
    assert_eq!(number, 111 + (1 << 40) + (1 << 56));
    let number = entry_offer(&mut entry, &one.file(), 0, &mut [0; 79], &mut []);
    assert_eq!(number, 110 + (1 << 8) + (1 << 56));
    assert_eq!(entry, opened(&two));
}

#[test]
fn an_empty_word_is_a_word_too() {
    let mut entry = opened(&j());
    assert_eq!(offer(&mut entry, &h(), 0), (2, 2, 0, 0, 0));
    assert_eq!(
        parts(entry_offer(&mut entry, &h().file(), 0, &mut [0; 80], &mut [])),
        (2, 2, 0, 0, 0)
    );
    assert_eq!(offer(&mut entry, &h(), 1), (0, 2, 2, 0, 0));
}

#[test]
fn refusals_10_and_11_say_which_walk() {
    let mut entry = opened(&f());
    let mut ask = |bound: u64, slots: usize, room: usize| {
        let number = entry_offer(
            &mut entry,
            &g().file(),
            bound,
            &mut vec![0; slots * 40],
            &mut vec![0; room],
        );
        assert_eq!(entry, opened(&f()));
        number
    };
    assert_eq!(ask(1, 0, 9), 110 + (1 << 56));
    assert_eq!(ask(1, 4, 9), 110 + (4 << 8) + (1 << 56));
    assert_eq!(ask(1, 5, 9), 110 + (5 << 24) + (2 << 56));
    assert_eq!(ask(1, 7, 9), 110 + (7 << 24) + (2 << 56));
    assert_eq!(ask(0, 4, 0), 111 + (1 << 40) + (2 << 56));
}

#[test]
fn the_back_walk_writes_over_the_forward_walks_slots() {
    for (slots, room, expected) in [(10, 3, 2), (10, 0, 111)] {
        let mut work = vec![0xAB; slots * 40 + 5];
        let forward = definitions::walk(&f(), &g(), 0, &work, &[]);
        let back = definitions::walk(&g(), &f(), 0, &forward.work, &[]);
        assert_ne!(forward.work[80..160], work[80..160], "the forward walk has more slots");
        assert_eq!(forward.work[80..], back.work[80..]);
        let mut entry = opened(&f());
        let number = entry_offer(&mut entry, &g().file(), 0, &mut work, &mut vec![0; room]);
        assert_eq!(number & 0xFF, expected);
        assert_eq!(work, back.work);
    }
}

#[test]
fn open_checks_in_the_documents_order() {
    let mut fresh = [0; ENTRY_BYTES];
    for (row, file) in faulty().iter().enumerate() {
        assert_eq!(entry_open(&mut fresh, file), 101 + row as u64);
    }
    assert_eq!(entry_open(&mut fresh, &dead()), 106);
    assert_eq!(fresh, [0; ENTRY_BYTES]);
    let mut entry = opened(&f());
    assert_eq!(entry_open(&mut entry, &f().file()), 112);
    assert_eq!(entry_open(&mut entry, &[]), 112, "12 before 1");
    assert_eq!(entry, opened(&f()));
    entry[0] = 2;
    assert_eq!(entry_open(&mut entry, &[]), 109, "9 before 12");
}

#[test]
fn offer_checks_in_the_documents_order() {
    let unused = |entry: &mut [u8], file: &[u8], bound: u64| {
        let before = entry.to_vec();
        let (mut work, mut word) = ([0xAB; 400], [0xCD; 5]);
        let number = entry_offer(entry, file, bound, &mut work, &mut word);
        assert!(
            entry == before && work == [0xAB; 400] && word == [0xCD; 5],
            "a refusal changes a buffer"
        );
        number
    };
    let mut fresh = [0; ENTRY_BYTES];
    assert_eq!(unused(&mut fresh, &h().file(), 0), 113);
    assert_eq!(unused(&mut fresh, &[], 99), 113, "13 before 1");
    let mut malformed = fresh;
    malformed[0] = 7;
    assert_eq!(unused(&mut malformed, &[], 99), 109, "9 before 13");
    let mut entry = opened(&j());
    for (row, file) in faulty().iter().enumerate() {
        assert_eq!(unused(&mut entry, file, 99), 101 + row as u64, "{} before 8", row + 1);
    }
    let mut dead_two = dead();
    dead_two[3] = 2;
    assert_eq!(unused(&mut entry, &dead_two, 15), 108, "8 before 7");
    assert_eq!(
        unused(&mut entry, &dead_two, 256),
        108,
        "the bound is not cut to a byte"
    );
    assert_eq!(unused(&mut entry, &dead_two, 14), 107, "7 before 6");
    let mut at_h = opened(&h());
    let mut larger = h();
    larger.states = 2;
    larger.transitions.push((0, 0, 1));
    assert_eq!(unused(&mut at_h, &larger.file(), 0), 106, "6 before 14");
    assert_eq!(unused(&mut at_h, &h().file(), 0), 114);
    let mut last = bytes(&j(), LAST_EDITION, 2);
    assert_eq!(unused(&mut last, &dead(), 1), 106, "6 before 14");
    assert_eq!(
        unused(&mut last, &h().file(), 1),
        114,
        "the last edition is not replaced"
    );
    let number = entry_offer(&mut last, &h().file(), 1, &mut [], &mut []);
    assert_eq!(number, 114, "14 before 10");
}

#[test]
fn as_many_states_and_fewer_transitions_are_smaller() {
    let mut larger = j();
    larger.transitions.push((0, 0, 0));
    let mut entry = opened(&larger);
    assert_eq!(offer(&mut entry, &larger, 0).0, 114);
    assert_ne!(offer(&mut entry, &j(), 14).0, 114);
    let mut other = j();
    other.initial = 1;
    let mut entry = opened(&j());
    assert_eq!(offer(&mut entry, &other, 0).0, 114, "as many transitions are not fewer");
}

#[test]
fn edition_183_071_is_the_last_one() {
    let pairs: u32 = (1..=32).map(|n| 16 * n * n + 1).sum();
    assert_eq!(LAST_EDITION, pairs - 1);
    let mut entry = bytes(&j(), LAST_EDITION - 1, 2);
    assert_eq!(offer(&mut entry, &h(), 1).0, 0);
    assert_eq!(entry, bytes(&h(), LAST_EDITION, 2));
    assert_eq!(entry_open(&mut entry, &h().file()), 112);
    assert_eq!(entry_verdict(&entry, &[], &[0]), 1);
    let mut above = bytes(&j(), LAST_EDITION + 1, 2);
    assert_eq!(offer(&mut above, &h(), 1).0, 109);
    assert_eq!(entry_verdict(&above, &[], &[0]), 109);
}

#[test]
fn malformed_entries_are_condition_9() {
    let sound = bytes(&g(), 3, 4);
    assert_eq!(entry_verdict(&sound, &[], &[0, 1]), 1);
    let check = |what: &str, entry: &[u8]| {
        let mut changed = entry.to_vec();
        assert_eq!(entry_open(&mut changed, &h().file()), 109, "{what}");
        assert_eq!(offer(&mut changed, &h(), 1).0, 109, "{what}");
        assert_eq!(entry_verdict(&changed, &[], &[]), 109, "{what}");
        assert_eq!(changed, entry, "{what}");
    };
    check("no bytes", &[]);
    check("one byte short", &sound[..2060]);
    check("one byte long", &[sound.as_slice(), &[0]].concat());
    check("empty and short", &[0; 2060]);
    check("empty and long", &[0; 2062]);
    let set = |place: usize, value: u8| {
        let mut entry = sound.clone();
        entry[place] = value;
        entry
    };
    for kind in 2..=255 {
        check("kind", &set(0, kind));
    }
    for (place, values) in [
        (1, vec![0, 2, 33, 255]),
        (2, vec![0, 1, 17, 255]),
        (3, vec![3, 4, 31, 255]),
        (4, vec![0, 1, 2, 33, 255]),
    ] {
        for value in values {
            check("header", &set(place, value));
        }
    }
    check("edition", &set(7, 3));
    check("edition", &set(8, 1));
    check("accepting state 3 of 3", &set(9, 0b1110));
    check("accepting state 31", &set(12, 0x80));
    check("target 3 of 3", &set(13, 0b1101));
    check("target 31", &set(16, 0x80));
    check("letter 2 of 2", &set(13 + 2 * 4, 1));
    check("letter 15", &set(13 + 15 * 4, 1));
    check("from state 3 of 3", &set(13 + 3 * 64, 1));
    check("from state 31", &set(13 + 31 * 64, 1));
    check("last byte", &set(2060, 0x80));
    check("dead state", &set(9, 0));
}

#[test]
fn well_formed_entries_pass_condition_9() {
    for first_states in 3..=32 {
        let entry = bytes(&g(), 3, first_states);
        assert_eq!(entry_verdict(&entry, &[], &[0, 1]), 1);
        assert_eq!(Entry::from_bytes(&entry).unwrap().to_bytes().to_vec(), entry);
    }
    let more_states = {
        // A fourth state that is not reached is not dead.
        let mut automaton = g();
        automaton.states = 4;
        automaton.transitions.push((3, 1, 3));
        bytes(&automaton, 3, 4)
    };
    assert_eq!(entry_verdict(&more_states, &[], &[0, 1]), 1);
}

#[test]
fn an_empty_entry_is_not_examined_and_open_replaces_its_leftovers() {
    let mut leftovers = vec![0xFF; ENTRY_BYTES];
    leftovers[0] = 0;
    assert_eq!(entry_verdict(&leftovers, &[], &[]), 113);
    assert_eq!(offer(&mut leftovers, &h(), 0).0, 113);
    assert_eq!(entry_open(&mut leftovers, &dead()), 106);
    assert!(leftovers[1..].iter().all(|&byte| byte == 0xFF));
    assert_eq!(entry_open(&mut leftovers, &h().file()), 0);
    assert_eq!(leftovers, bytes(&h(), 0, 1));
}

#[test]
fn verdict_checks_9_13_15() {
    let entry = opened(&f());
    assert_eq!(entry_verdict(&entry, &[], &[0, 1]), 1);
    assert_eq!(entry_verdict(&entry, &[], &[0]), 0);
    assert_eq!(entry_verdict(&entry, &[1], &[0]), 1);
    assert_eq!(entry_verdict(&entry, &[], &[]), 115);
    assert_eq!(entry_verdict(&entry, &[2], &[0]), 115);
    assert_eq!(entry_verdict(&entry, &[0; 4096], &[1; 4096]), 1);
    assert_eq!(entry_verdict(&entry, &[0; 4097], &[1]), 115);
    assert_eq!(entry_verdict(&entry, &[0], &[1; 4097]), 115);
    assert_eq!(entry_verdict(&[0; ENTRY_BYTES], &[], &[]), 113);
}

/// The plain account of a list of calls: the editions so far.
struct Account {
    editions: Vec<Plain>,
}

impl Account {
    fn open(&mut self, file: Option<&Plain>) {
        let Some(automaton) = file else { return };
        if self.editions.is_empty() && definitions::dead(automaton).is_empty() {
            self.editions.push(automaton.clone());
        }
    }

    /// Adds the offer as the last edition if no refusal applies and both containments hold; gives the expected number.
    fn offer(&mut self, file: Option<&Plain>, bound: u64, work: &[u8], word: &[u8]) -> (Parts, Vec<u8>, Vec<u8>) {
        let refused = |kind| ((kind, 0, 0, 0, 0), work.to_vec(), word.to_vec());
        let Some(held) = self.editions.last() else {
            return refused(113);
        };
        let Some(offer) = file else {
            return refused(101);
        };
        let size = |automaton: &Plain| (automaton.states, automaton.transitions.len());
        if bound > 14 {
            return refused(108);
        }
        if held.letters != offer.letters {
            return refused(107);
        }
        if !definitions::dead(offer).is_empty() {
            return refused(106);
        }
        if size(offer) >= size(held) {
            return refused(114);
        }
        let forward = definitions::walk(held, offer, bound as u8, work, word);
        let (count, length) = (forward.count as u64, forward.length as u64);
        if forward.kind != 0 {
            let walk = if forward.kind == 1 { 0 } else { 1 };
            return ((forward.kind, count, 0, length, walk), forward.work, forward.word);
        }
        let back = definitions::walk(offer, held, bound as u8, &forward.work, &forward.word);
        let (back_count, length) = (back.count as u64, back.length as u64);
        let numbers = match back.kind {
            0 => (0, count, back_count, 0, 0),
            1 => (2, count, back_count, length, 0),
            kind => (kind, 0, back_count, length, 2),
        };
        if back.kind == 0 {
            self.editions.push(offer.clone());
        }
        (numbers, back.work, back.word)
    }

    fn bytes(&self) -> Vec<u8> {
        match self.editions.last() {
            None => vec![0; 2061],
            Some(last) => bytes(last, self.editions.len() as u32 - 1, self.editions[0].states),
        }
    }
}

/// An automaton that an offer may well be taken with: the last edition without some transitions, or without a state, or any.
fn draw(random: &mut Random, account: &Account) -> Plain {
    let letters = if random.chance(1, 30) { 1 } else { 2 };
    let states = 1 + random.below(3);
    let Some(last) = account.editions.last() else {
        return match random.chance(9, 10) {
            true => random.live_automaton(states + 1, 2, 2),
            false => random.automaton(states, letters, 1),
        };
    };
    match random.below(5) {
        0 => random.automaton(states, letters, 1),
        1 | 2 => {
            let mut automaton = last.clone();
            for _ in 0..1 + random.below(2) {
                if !automaton.transitions.is_empty() {
                    automaton.transitions.remove(random.below(automaton.transitions.len()));
                }
            }
            automaton
        }
        _ => {
            // The last state becomes one with another state.
            let mut automaton = last.clone();
            if automaton.states > 1 {
                automaton.states -= 1;
                let gone = automaton.states;
                let instead = random.below(gone);
                let keep = |q: usize| if q == gone { instead } else { q };
                automaton.initial = keep(automaton.initial);
                automaton.accepting = automaton.accepting.iter().map(|&q| keep(q)).collect();
                let steps = automaton.transitions.iter();
                automaton.transitions = steps.map(|&(q, a, r)| (keep(q), a, keep(r))).collect();
                automaton.accepting.sort();
                automaton.accepting.dedup();
                automaton.transitions.sort();
                automaton.transitions.dedup();
            }
            automaton
        }
    }
}

#[test]
fn after_a_list_of_calls_the_entry_holds_the_accounts_last_edition() {
    let mut random = Random::new("lists of calls", 0x5EED_0501);
    let mut kinds = std::collections::BTreeMap::new();
    let mut most = 0;
    for _ in 0..400 {
        let mut entry = vec![0; ENTRY_BYTES];
        let mut account = Account { editions: Vec::new() };
        for _ in 0..20 {
            let automaton = draw(&mut random, &account);
            let cut = random.chance(1, 20);
            let file = match cut {
                true => automaton.file()[..5].to_vec(),
                false => automaton.file(),
            };
            let plain = (!cut).then_some(&automaton);
            let opens = if account.editions.is_empty() { 4 } else { 1 };
            if random.chance(opens, 8) {
                account.open(plain);
                let open = entry_open(&mut entry, &file);
                assert!([0, 101, 106, 112].contains(&open));
            } else {
                let bound = [0, 1, 2, 3, 14, 15][random.below(6)];
                let (length, room) = (random.below(40 * 30), random.below(4));
                let (mut work, mut word) = (random.bytes(length), random.bytes(room));
                let (expected, work_after, word_after) = account.offer(plain, bound, &work, &word);
                let found = parts(entry_offer(&mut entry, &file, bound, &mut work, &mut word));
                assert_eq!(found, expected);
                assert!(work == work_after && word == word_after);
                *kinds.entry(found.0).or_insert(0) += 1;
            }
            assert_eq!(entry, account.bytes());
        }
        most = most.max(account.editions.len());
        let Some(first) = account.editions.first() else {
            continue;
        };
        for _ in 0..5 {
            let lengths = (random.below(3), 1 + random.below(2));
            let (stem, cycle) = (random.word(2, lengths.0), random.word(2, lengths.1));
            if first.letters == 2 {
                let accepted = definitions::accepts(first, &stem, &cycle);
                assert_eq!(entry_verdict(&entry, &stem, &cycle), accepted.into());
            }
        }
    }
    println!("offers by kind: {kinds:?}; most editions {most}");
    assert!(kinds.len() >= 10 && most >= 4);
}
