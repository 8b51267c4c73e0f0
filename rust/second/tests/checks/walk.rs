//! The walk: against the discovery list of the definition, and against runs and lags.

use second::refusal::Refusal;
use second::walk::{check_bound, slots, walk, Outcome};

use crate::definitions::{self, contained_on, discovery, pending, runs, shortest_difference, visits, way, Lags};
use crate::random::Random;
use crate::worked::{all, everything, f, g, h, j, window, Plain};

/// Kind, count and word length of a walk's result.
fn parts(result: Result<Outcome, Refusal>) -> (u64, usize, usize) {
    match result {
        Ok(Outcome::Contained { count }) => (0, count, 0),
        Ok(Outcome::Differs { count, length }) => (1, count, length),
        Err(Refusal::Slots { count }) => (110, count, 0),
        Err(Refusal::Word { needed }) => (111, 0, needed),
        Err(refusal) => panic!("{refusal:?} is no refusal of the walk"),
    }
}

/// Walks on copies of the buffers and compares the result and every byte with the definition.
fn compare(left: &Plain, right: &Plain, bound: u8, work: &[u8], word: &[u8]) -> (u64, usize, usize) {
    let expected = definitions::walk(left, right, bound, work, word);
    let (mut work, mut word) = (work.to_vec(), word.to_vec());
    let found = parts(walk(&left.read(), &right.read(), bound, &mut work, &mut word));
    let context = || format!("{left:?}\n{right:?}\nbound {bound}, {} bytes", work.len());
    assert_eq!(found, (expected.kind, expected.count, expected.length), "{}", context());
    assert!(work == expected.work, "{}", context());
    assert_eq!(word, expected.word, "{}", context());
    found
}

#[test]
fn slots_are_forty_bytes_and_4096_at_most() {
    let lengths = [
        0, 39, 40, 41, 79, 80, 65_520, 163_839, 163_840, 163_841, 163_880, 1_000_000,
    ];
    let expected = [0, 0, 1, 1, 1, 2, 1_638, 4_095, 4_096, 4_096, 4_096, 4_096];
    assert_eq!(lengths.map(slots), expected);
}

#[test]
fn the_bound_is_a_number_and_never_cut_to_a_byte() {
    for bound in 0..=14 {
        assert_eq!(check_bound(bound), Ok(bound as u8));
    }
    for bound in [15, 16, 255, 256, 270, 1 << 32, u64::MAX] {
        assert_eq!(check_bound(bound), Err(Refusal::Bound));
    }
}

#[test]
fn h_in_j_leaves_the_slots_computed_by_hand() {
    let mut work = [0xAA; 85];
    let found = walk(&h().read(), &j().read(), 1, &mut work, &mut []);
    assert_eq!(found, Ok(Outcome::Contained { count: 2 }));
    let mut expected = [0xAA; 85];
    expected[..80].fill(0);
    expected[1] = 1;
    expected[33..36].fill(0xFF);
    expected[40 + 2] = 2;
    assert_eq!(work, expected);
}

#[test]
fn g_in_f_leaves_the_slots_computed_by_hand() {
    let mut work = [0xAA; 120];
    let mut word = [0xBB; 3];
    let found = walk(&g().read(), &f().read(), 0, &mut work, &mut word);
    assert_eq!(found, Ok(Outcome::Differs { count: 2, length: 1 }));
    let mut expected = [0xAA; 120];
    expected[..80].fill(0);
    expected[1] = 1;
    expected[33..36].fill(0xFF);
    expected[40 + 3] = 1;
    assert_eq!(work, expected);
    assert_eq!(word, [0, 0xBB, 0xBB]);
}

#[test]
fn odd_buffers_keep_the_bytes_that_are_no_slot() {
    let mut random = Random::new("odd buffers", 0x5EED_0201);
    let pairs = [(f(), g()), (g(), f()), (h(), j()), (j(), h())];
    for (left, right) in &pairs {
        for bound in 0..=14 {
            for length in [
                0, 1, 39, 40, 41, 79, 80, 81, 119, 120, 199, 200, 201, 279, 280, 320, 321, 500,
            ] {
                for letters in 0..3 {
                    let (work, word) = (random.bytes(length), random.bytes(letters));
                    compare(left, right, bound, &work, &word);
                }
            }
        }
    }
}

#[test]
fn a_final_initial_vertex_needs_no_slot() {
    assert_eq!(compare(&h(), &j(), 0, &[], &[]), (1, 0, 0));
    assert_eq!(compare(&h(), &j(), 0, &[7; 39], &[]), (1, 0, 0));
    assert_eq!(compare(&h(), &j(), 1, &[], &[]), (110, 0, 0));
    assert_eq!(compare(&h(), &j(), 1, &[7; 39], &[]), (110, 0, 0));
    assert_eq!(compare(&h(), &j(), 1, &[7; 79], &[]), (110, 1, 0));
}

#[test]
fn a_final_vertex_at_place_s_is_still_found() {
    assert_eq!(compare(&g(), &f(), 0, &[7; 80], &[7]), (1, 2, 1));
    assert_eq!(compare(&g(), &f(), 0, &[7; 79], &[7]), (110, 1, 0));
}

#[test]
fn no_more_than_4096_slots_are_used() {
    let left = everything(2);
    let exact = window(12);
    assert_eq!(compare(&left, &exact, 3, &[7; 4096 * 40], &[]), (0, 4096, 0));
    assert_eq!(compare(&left, &exact, 3, &[7; 5000 * 40 + 1], &[]), (0, 4096, 0));
    assert_eq!(compare(&left, &exact, 3, &[7; 4096 * 40 - 1], &[]), (110, 4095, 0));
    let more = window(13);
    assert_eq!(compare(&left, &more, 3, &[7; 4096 * 40], &[]), (110, 4096, 0));
    assert_eq!(compare(&left, &more, 3, &[7; 5000 * 40 + 1], &[]), (110, 4096, 0));
    assert_eq!(compare(&left, &more, 3, &[7; 100 * 40], &[]), (110, 100, 0));
}

#[test]
fn a_lag_is_the_longest_stretch_of_visits_without_the_second_run() {
    for positions in 0..=7 {
        for first in 0..1_u32 << positions {
            for second in 0..1_u32 << positions {
                let stretches = (0..=positions).flat_map(|from| (from..=positions).map(move |to| from..to));
                let free = stretches.filter(|stretch| stretch.clone().all(|x| second >> x & 1 == 0));
                let visits = free.map(|stretch| stretch.filter(|x| first >> x & 1 == 1).count());
                let longest = visits.max().unwrap() as u32;
                assert_eq!(definitions::lag(positions, first, second), longest);
            }
        }
    }
}

/// Compares the walk with run prefixes: a counter of a listed vertex is b + 1 less the visits pending, for the best right run
/// prefix that ends in its state with lag at most b, and 0 if there is none; the word of "differs" is a shortest word on which
/// the left automaton is not contained; after "contained" there is no such word.
fn compare_with_runs(left: &Plain, right: &Plain, bound: u8, lags: &Lags) -> u64 {
    let limit = lags.positions() - 1;
    let mut work = vec![0; 40 * 300];
    let mut word = vec![0; 300];
    let result = walk(&left.read(), &right.read(), bound, &mut work, &mut word);
    let list = discovery(left, right, bound, 300);
    for (place, slot) in work.chunks_exact(40).enumerate().take(list.len()) {
        let (word, states) = way(&list, place);
        if list[place].is_final() || word.len() > limit {
            continue;
        }
        let first = visits(left, &states);
        let mut counters = [0; 32];
        for run in runs(right, right.initial, &word) {
            let second = visits(right, &run);
            if lags.get(run.len(), first, second) <= bound.into() {
                let counter = u32::from(bound) + 1 - pending(run.len(), first, second);
                let best = &mut counters[run[run.len() - 1]];
                *best = counter.max(*best);
            }
        }
        assert_eq!(
            slot[1..33],
            counters.map(|counter| counter as u8),
            "{left:?}\n{right:?}\n{bound}"
        );
    }
    let shortest = shortest_difference(left, right, bound.into(), limit, lags);
    let context = || format!("{left:?}\n{right:?}\nbound {bound}: {result:?}");
    match result {
        Ok(Outcome::Contained { .. }) => assert_eq!(shortest, None, "{}", context()),
        Ok(Outcome::Differs { length, .. }) if length > limit => assert_eq!(shortest, None, "{}", context()),
        Ok(Outcome::Differs { length, .. }) => {
            assert_eq!(shortest, Some(length), "{}", context());
            assert!(
                !contained_on(left, right, bound.into(), &word[..length], lags),
                "{}",
                context()
            );
        }
        Err(_) => panic!("{}", context()),
    }
    parts(result).0
}

#[test]
fn the_walk_decides_containment_for_all_automata_with_one_letter_and_two_states() {
    let lags = Lags::new(6);
    let automata: Vec<Plain> = all(1, 1).chain(all(2, 1)).collect();
    let mut kinds = [0_u32; 2];
    for left in &automata {
        for right in &automata {
            for bound in 0..=2 {
                kinds[compare_with_runs(left, right, bound, &lags) as usize] += 1;
            }
        }
    }
    println!("contained {}, differs {}", kinds[0], kinds[1]);
}

#[test]
fn the_walk_decides_containment_for_random_small_automata() {
    let lags = Lags::new(6);
    let mut random = Random::new("containment on runs", 0x5EED_0202);
    let mut kinds = [0_u32; 2];
    for round in 0..8_000 {
        let letters = 1 + random.below(2);
        let (m, n) = (1 + random.below(3), 1 + random.below(3));
        let left = random.automaton(m, letters, 1);
        let mut right = random.automaton(n, letters, 1 + round % 2);
        if random.chance(1, 2) {
            // The left automaton with more transitions and other accepting states is contained more often.
            right.accepting = (0..m).filter(|_| random.chance(2, 3)).collect();
            right.transitions.extend(&left.transitions);
            right.transitions.sort();
            right.transitions.dedup();
            right.states = m.max(n);
            right.initial = left.initial;
        }
        let bound = random.below(4) as u8;
        kinds[compare_with_runs(&left, &right, bound, &lags) as usize] += 1;
    }
    println!("contained {}, differs {}", kinds[0], kinds[1]);
    assert!(kinds.iter().all(|&count| count > 1000));
}

#[test]
fn the_walk_lists_what_the_definition_lists() {
    let mut random = Random::new("discovery lists", 0x5EED_0203);
    let mut kinds = std::collections::BTreeMap::new();
    for round in 0..6_000 {
        let letters = 1 + random.below(3);
        let (m, n) = (1 + random.below(6), 1 + random.below(6));
        let left = random.automaton(m, letters, 1);
        let mut right = random.automaton(n, letters, 2);
        if round % 2 == 0 {
            let (from, to) = (random.below(n), random.below(n));
            right.transitions.extend((0..letters).map(|letter| (from, letter, to)));
            right.transitions.sort();
            right.transitions.dedup();
        }
        let bound = random.below(15) as u8;
        let length = random.below(40 * 60);
        let letters = random.below(12);
        let (work, word) = (random.bytes(length), random.bytes(letters));
        *kinds.entry(compare(&left, &right, bound, &work, &word).0).or_insert(0) += 1;
    }
    println!("walks by kind: {kinds:?}");
    assert_eq!(kinds.len(), 4);
}

#[test]
fn the_walk_lists_what_the_definition_lists_for_large_automata() {
    let mut random = Random::new("large discovery lists", 0x5EED_0204);
    let mut kinds = std::collections::BTreeMap::new();
    for round in 0..60 {
        let letters = [1, 2, 16][round % 3];
        let left = random.automaton(32, letters, 1);
        let right = random.automaton(32, letters, 2);
        let bound = random.below(15) as u8;
        let length = 40 * random.below(1000);
        let (work, word) = (random.bytes(length), random.bytes(40));
        *kinds.entry(compare(&left, &right, bound, &work, &word).0).or_insert(0) += 1;
    }
    println!("walks by kind: {kinds:?}");
}
