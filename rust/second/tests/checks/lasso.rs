//! Verdict: the worked cases K8 to K11, row 15, and acceptance over runs.

use second::entry::Entry;
use second::lasso::{accepts, verdict};
use second::refusal::Refusal;

use crate::definitions;
use crate::random::Random;
use crate::worked::{all, everything, f, g, h, j, ring, Plain};

#[test]
fn k8_to_k10_verdicts_of_f() {
    let f = f().read();
    assert_eq!(verdict(&f, &[], &[0, 1]), Ok(true));
    assert_eq!(verdict(&f, &[], &[0]), Ok(false));
    assert_eq!(verdict(&f, &[1], &[0]), Ok(true));
}

#[test]
fn f_and_g_agree_on_all_short_lassos() {
    let (f, g) = (f().read(), g().read());
    for stem in (0..=4).flat_map(|length| definitions::words(2, length)) {
        for cycle in (1..=4).flat_map(|length| definitions::words(2, length)) {
            let both = [0, 1]
                .iter()
                .all(|letter| stem.contains(letter) || cycle.contains(letter));
            assert_eq!(accepts(&f, &stem, &cycle), both);
            assert_eq!(accepts(&g, &stem, &cycle), both);
        }
    }
}

#[test]
fn k11_4096_letters_pass_and_4097_do_not() {
    let f = f().read();
    let refused = Err(Refusal::Lasso);
    assert_eq!(verdict(&f, &[0; 4096], &[1]), Ok(true));
    assert_eq!(verdict(&f, &[0; 4097], &[1]), refused);
    assert_eq!(verdict(&f, &[1], &[0; 4096]), Ok(true));
    assert_eq!(verdict(&f, &[1], &[0; 4097]), refused);
    assert_eq!(verdict(&f, &[], &[0; 4096]), Ok(false));
    assert_eq!(verdict(&f, &[], &[]), refused);
    assert_eq!(verdict(&f, &[0; 4096], &[]), refused);
    assert_eq!(verdict(&f, &[2], &[1]), refused);
    assert_eq!(verdict(&f, &[0, 0, 255], &[1]), refused);
    assert_eq!(verdict(&f, &[0], &[0, 2]), refused);
    assert_eq!(verdict(&everything(16).read(), &[15], &[15]), Ok(true));
    assert_eq!(verdict(&everything(16).read(), &[15], &[16]), refused);
}

#[test]
fn an_entry_gives_the_held_automatons_verdict() {
    let mut entry = Entry::fresh();
    assert_eq!(entry.verdict(&[], &[]), Err(Refusal::Empty), "13 before 15");
    entry.open(&f().file()).unwrap();
    assert_eq!(entry.verdict(&[], &[0, 1]), Ok(true));
    assert_eq!(entry.verdict(&[], &[0]), Ok(false));
    assert_eq!(entry.verdict(&[], &[]), Err(Refusal::Lasso));
}

#[test]
fn the_definition_has_no_length_limits() {
    let f = f().read();
    assert!(accepts(&f, &[0; 10_000], &[0, 1]));
    assert!(!accepts(&f, &[0; 10_000], &[0; 10_000]));
    assert!(!accepts(&f, &[1, 7], &[0]), "no run reads a letter outside");
    assert!(!accepts(&f, &[1, 0], &[7]), "no run reads a letter outside");
}

#[test]
fn an_accepting_state_may_need_several_copies_of_the_loop() {
    // Only the fifth state of five accepts, so a run is back at its start after five copies of a loop.
    let ring = ring(5).read();
    for length in 1..=12 {
        assert!(accepts(&ring, &[], &vec![0; length]));
    }
    assert!(!accepts(&ring, &[], &[0, 1]));
}

#[test]
fn an_accepting_state_off_the_loop_does_not_count() {
    let once = Plain {
        accepting: vec![0],
        ..j()
    };
    assert!(!accepts(&once.read(), &[], &[0]));
    assert!(accepts(&h().read(), &[], &[0]));
}

/// Stems of up to `stem` letters and loops of 1 to `cycle` letters.
fn lassos(letters: usize, stem: usize, cycle: usize) -> Vec<(Vec<u8>, Vec<u8>)> {
    let stems = (0..=stem).flat_map(|length| definitions::words(letters, length));
    let cycles: Vec<_> = (1..=cycle)
        .flat_map(|length| definitions::words(letters, length))
        .collect();
    stems
        .flat_map(|stem| cycles.iter().map(move |cycle| (stem.clone(), cycle.clone())))
        .collect()
}

#[test]
fn acceptance_is_that_of_the_definition_for_all_automata_with_two_states() {
    let mut verdicts = [0_u32; 2];
    for (states, letters) in [(1, 1), (2, 1), (1, 2), (2, 2)] {
        let lassos = lassos(letters, 1, 2);
        for automaton in all(states, letters) {
            let value = automaton.read();
            for (stem, cycle) in &lassos {
                let found = accepts(&value, stem, cycle);
                assert_eq!(
                    found,
                    definitions::accepts(&automaton, stem, cycle),
                    "{automaton:?} {stem:?} {cycle:?}"
                );
                verdicts[usize::from(found)] += 1;
            }
        }
    }
    println!("no {}, yes {}", verdicts[0], verdicts[1]);
}

#[test]
fn acceptance_is_that_of_the_definition_for_random_automata() {
    let mut random = Random::new("acceptance over runs", 0x5EED_0401);
    let mut verdicts = [0_u32; 2];
    for _ in 0..6_000 {
        let states = 1 + random.below(3);
        let automaton = random.automaton(states, 2, 1);
        let value = automaton.read();
        let lengths = (random.below(4), 1 + random.below(3));
        let (stem, cycle) = (random.word(2, lengths.0), random.word(2, lengths.1));
        let found = accepts(&value, &stem, &cycle);
        assert_eq!(
            found,
            definitions::accepts(&automaton, &stem, &cycle),
            "{automaton:?} {stem:?} {cycle:?}"
        );
        verdicts[usize::from(found)] += 1;
    }
    println!("no {}, yes {}", verdicts[0], verdicts[1]);
    assert!(verdicts.iter().all(|&count| count > 500));
}

#[test]
fn a_verdict_does_not_depend_on_how_the_lasso_is_written() {
    let mut random = Random::new("same word, other lasso", 0x5EED_0402);
    for _ in 0..3_000 {
        let (states, letters) = (1 + random.below(32), 1 + random.below(4));
        let value = random.automaton(states, letters, 1).read();
        let lengths = (random.below(6), 1 + random.below(6));
        let (stem, cycle) = (random.word(letters, lengths.0), random.word(letters, lengths.1));
        let found = accepts(&value, &stem, &cycle);
        assert_eq!(accepts(&value, &stem, &cycle.repeat(3)), found);
        assert_eq!(accepts(&value, &[stem.as_slice(), &cycle].concat(), &cycle), found);
        let (first, rest) = cycle.split_first().unwrap();
        let shifted = [rest, &[*first]].concat();
        assert_eq!(accepts(&value, &[stem.as_slice(), &[*first]].concat(), &shifted), found);
    }
}
