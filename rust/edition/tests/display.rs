//! What is shown of automata and entries, against the second checker.

mod examples;

use edition::{Automaton, Entry};
use second::automaton::members;

/// A well-formed file: accepting states and transitions are the bits of two numbers.
fn file(states: u8, initial: u8, accepting: u32, transitions: u32) -> Vec<u8> {
    let mut bytes = vec![b'A', b'H', states, 1, initial];
    for state in (0..states).filter(|state| accepting >> state & 1 == 1) {
        bytes.extend([b'A', b'F', state]);
    }
    for pair in (0..states * states).filter(|pair| transitions >> pair & 1 == 1) {
        bytes.extend([b'A', b'T', pair / states, 0, pair % states]);
    }
    bytes.extend(b"AE");
    bytes
}

/// Compares every field with what the second checker reads; says whether the automaton has a dead state.
fn check(file: &[u8]) -> bool {
    let shown = Automaton::from_file(file).expect("the file is well formed");
    let read = second::file::read(file).expect("the file is well formed");
    let header = [shown.states(), shown.letters(), shown.initial()].map(usize::from);
    assert_eq!(header, [read.states(), read.letters(), read.initial()]);
    let accepting = (0..shown.states())
        .filter(|&state| shown.accepts(state))
        .map(usize::from);
    assert!(accepting.eq(members(read.accepting())));
    let sources = (0..read.states()).flat_map(|from| (0..read.letters()).map(move |letter| (from, letter)));
    let transitions = sources.flat_map(|(from, letter)| {
        members(read.transitions(letter)[from]).map(move |to| (from as u8, letter as u8, to as u8))
    });
    assert!(shown.transitions().eq(transitions));
    let dead = shown.dead_states();
    assert!(
        dead.iter()
            .map(|&state| usize::from(state))
            .eq(members(second::dead::dead_states(&read))),
        "{file:?}"
    );
    !dead.is_empty()
}

#[test]
fn all_automata_of_three_states_and_one_letter_are_shown_as_they_are() {
    let mut with_dead_states = 0;
    for number in 0..3u32 << 12 {
        let (initial, accepting, transitions) = (number >> 12, number >> 9 & 7, number & 511);
        with_dead_states += usize::from(check(&file(3, initial as u8, accepting, transitions)));
    }
    assert!((1..12_288).contains(&with_dead_states));
}

#[test]
fn the_examples_are_shown_as_they_are() {
    for (path, bytes) in examples::all() {
        assert!(!check(&bytes), "{} has dead states", path.display());
    }
}

#[test]
fn the_largest_automaton_is_shown_whole() {
    let mut bytes = vec![b'A', b'H', 32, 16, 31];
    bytes.extend((0..32).flat_map(|state| [b'A', b'F', state]));
    let triples = (0..16384u32).map(|number| [number >> 9, number >> 5 & 15, number & 31].map(|field| field as u8));
    bytes.extend(triples.flat_map(|[from, letter, to]| [b'A', b'T', from, letter, to]));
    bytes.extend(b"AE");
    assert_eq!(bytes.len(), 82_023);
    assert!(!check(&bytes));
}

/// Two states and one letter, all transitions and acceptance; the bits of 32, 33 and 255 would be those of 0, 1 and 31 in a shift
/// that wraps.
#[test]
fn states_and_letters_that_the_automaton_lacks_have_no_acceptance_and_no_target() {
    let automaton = Automaton::from_file(&file(2, 0, 3, 15)).expect("the file is well formed");
    let numbers = 0..=u8::MAX;
    assert!(numbers.clone().filter(|&state| automaton.accepts(state)).eq([0, 1]));
    assert!(automaton.accepting().eq([0, 1]));
    for from in numbers.clone() {
        for letter in numbers.clone() {
            let wanted: &[u8] = if from < 2 && letter == 0 { &[0, 1] } else { &[] };
            assert!(
                automaton.targets(from, letter).eq(wanted.iter().copied()),
                "{from} on {letter}"
            );
        }
    }
}

#[test]
fn a_file_that_is_not_well_formed_is_not_shown() {
    let whole = file(3, 0, 7, 511);
    for length in 0..whole.len() {
        let refusal = Automaton::from_file(&whole[..length]).expect_err("the file is cut short");
        assert_eq!(refusal.number(), 1);
    }
}

#[test]
fn damaged_entries_are_judged_as_by_the_second_checker() {
    let mut entry = Entry::fresh();
    entry
        .open(include_bytes!("../../../examples/f.ba"))
        .expect("F is well formed");
    let sound = entry.to_bytes();
    let damages = (0..sound.len()).flat_map(|place| (0..8).map(move |bit| (place, 1 << bit)).chain([(place, 0xFF)]));
    let mut refused = 0;
    for (place, damage) in damages {
        let mut bytes = sound;
        bytes[place] ^= damage;
        let wanted = second::Entry::from_bytes(&bytes).is_ok();
        assert_eq!(
            Entry::from_bytes(&bytes).is_ok(),
            wanted,
            "byte {place} changed by {damage:#x}"
        );
        refused += usize::from(!wanted);
        let Ok(entry) = Entry::from_bytes(&bytes) else { continue };
        assert_eq!(entry.to_bytes(), bytes);
        let verdict = entry
            .verdict(&[], &[0])
            .map_or_else(|refusal| 100 + u64::from(refusal.number()), u64::from);
        assert_eq!(
            verdict,
            second::entry_verdict(&bytes, &[], &[0]),
            "byte {place} changed by {damage:#x}"
        );
    }
    assert!((1..9 * sound.len()).contains(&refused));
}
