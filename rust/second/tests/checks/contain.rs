//! Contain: the worked cases K1 to K7 and K11, the check order, the one number and both buffers.

use second::contain;

use crate::definitions;
use crate::faulty::{dead, faulty};
use crate::random::Random;
use crate::worked::{f, g, h, idle, j, ring, Plain};

/// Kind, count and word length of contain's number.
fn parts(number: u64) -> (u64, u64, u64) {
    (number & 0xFF, number >> 8 & 0xFFFF, number >> 24)
}

/// Contain with room for 100 slots and 10 letters: parts of its number, and the word.
fn ask(first: &Plain, second: &Plain, bound: u64) -> ((u64, u64, u64), Vec<u8>) {
    let (mut work, mut word) = ([0; 4000], [0xEE; 10]);
    let parts = parts(contain(&first.file(), &second.file(), bound, &mut work, &mut word));
    (parts, word[..parts.2 as usize].to_vec())
}

#[test]
fn k1_and_k2_f_is_contained_in_g() {
    assert_eq!(ask(&f(), &g(), 1), ((0, 5, 0), vec![]));
    assert_eq!(ask(&f(), &g(), 0), ((0, 4, 0), vec![]));
    let (mut work, mut word) = ([0; 200], [0; 0]);
    assert_eq!(contain(&f().file(), &g().file(), 1, &mut work, &mut word), 256 * 5);
}

#[test]
fn k3_g_differs_from_f_at_bound_0() {
    assert_eq!(ask(&g(), &f(), 0), ((1, 2, 1), vec![0]));
    let (first, second) = (g().file(), f().file());
    let number = contain(&first, &second, 0, &mut [0; 80], &mut [9; 1]);
    assert_eq!(number, 1 + 256 * 2 + 16_777_216);
    let number = contain(&first, &second, 0, &mut [0; 40], &mut [9; 1]);
    assert_eq!(number, 110 + 256);
}

#[test]
fn k3_without_word_bytes_needs_one() {
    let number = contain(&g().file(), &f().file(), 0, &mut [0; 80], &mut []);
    assert_eq!(number, 111 + 16_777_216);
}

#[test]
fn k4_and_k5_g_is_contained_in_f_at_bound_1_with_8_slots() {
    assert_eq!(ask(&g(), &f(), 1), ((0, 8, 0), vec![]));
    let (first, second) = (g().file(), f().file());
    assert_eq!(contain(&first, &second, 1, &mut [0; 8 * 40], &mut []), 256 * 8);
    assert_eq!(contain(&first, &second, 1, &mut [0; 7 * 40], &mut []), 110 + 256 * 7);
}

#[test]
fn k6_and_k7_h_in_j() {
    assert_eq!(ask(&h(), &j(), 0), ((1, 0, 0), vec![]));
    assert_eq!(ask(&h(), &j(), 1), ((0, 2, 0), vec![]));
}

#[test]
fn k11_bound_14_passes_and_15_does_not() {
    assert_eq!(ask(&f(), &g(), 14).0 .0, 0);
    for bound in [15, 16, 256, 1 << 32, u64::MAX] {
        assert_eq!(ask(&f(), &g(), bound), ((108, 0, 0), vec![]));
    }
}

#[test]
fn k11_32_states_pass_and_33_do_not() {
    assert_eq!(ask(&ring(32), &ring(32), 0).0, (0, 32, 0));
    assert_eq!(ask(&ring(33), &ring(32), 0).0, (103, 1, 0));
    assert_eq!(ask(&ring(32), &ring(33), 0).0, (103, 2, 0));
}

#[test]
fn checks_come_in_the_documents_order() {
    let live = h().file();
    let two = g().file();
    let mut dead_two = dead();
    dead_two[3] = 2;
    let ask = |first: &[u8], second: &[u8], bound: u64| {
        let (mut work, mut word) = ([0xAB; 100], [0xCD; 5]);
        let number = contain(first, second, bound, &mut work, &mut word);
        assert!(work == [0xAB; 100] && word == [0xCD; 5], "a refusal changes a buffer");
        parts(number)
    };
    for (row, first) in faulty().iter().enumerate() {
        let kind = 101 + row as u64;
        assert_eq!(ask(first, &live, 0), (kind, 1, 0));
        assert_eq!(ask(&live, first, 0), (kind, 2, 0));
        assert_eq!(ask(&dead(), first, 99), (kind, 2, 0));
        for second in &faulty() {
            assert_eq!(ask(first, second, 99), (kind, 1, 0));
        }
    }
    assert_eq!(ask(&live, &two, 15), (108, 0, 0), "8 before 7");
    assert_eq!(ask(&dead(), &dead(), 15), (108, 0, 0), "8 before 6");
    assert_eq!(ask(&live, &two, 14), (107, 0, 0));
    assert_eq!(ask(&dead(), &two, 14), (107, 0, 0), "7 before 6");
    assert_eq!(ask(&dead(), &dead_two, 14), (107, 0, 0), "7 before 6");
    assert_eq!(ask(&dead(), &live, 0), (106, 1, 0));
    assert_eq!(ask(&live, &dead(), 0), (106, 2, 0));
    assert_eq!(ask(&dead(), &dead(), 0), (106, 1, 0));
}

#[test]
fn the_word_buffer_may_be_exact_or_longer_and_not_shorter() {
    // 15 visits on a ring of 32 states with nothing accepting on the right: at position 32 * 15 - 1.
    let (first, second) = (ring(32).file(), idle().file());
    let length = 32 * 15 - 1;
    for room in [0, 1, length - 1] {
        let (mut work, mut word) = (vec![1; 40 * 500], vec![0xCD; room]);
        let number = contain(&first, &second, 14, &mut work, &mut word);
        assert_eq!(number, 111 + 16_777_216 * length as u64, "{room} bytes");
        assert!(word.iter().all(|&byte| byte == 0xCD));
        assert!(work[length * 40..].iter().all(|&byte| byte == 1) && work[..36] != [1; 36]);
    }
    for room in [length, length + 1, 1000] {
        let (mut work, mut word) = (vec![1; 40 * 500], vec![0xCD; room]);
        let number = contain(&first, &second, 14, &mut work, &mut word);
        assert_eq!(parts(number), (1, length as u64, length as u64), "{room} bytes");
        assert!(word[..length].iter().all(|&letter| letter == 0));
        assert!(word[length..].iter().all(|&byte| byte == 0xCD));
    }
}

#[test]
fn contain_answers_by_the_definitions() {
    let mut random = Random::new("contain", 0x5EED_0301);
    let mut kinds = std::collections::BTreeMap::new();
    for _ in 0..4_000 {
        let letters = 1 + random.below(2);
        let other_letters = if random.chance(1, 20) { 3 - letters } else { letters };
        let (m, n) = (1 + random.below(4), 1 + random.below(4));
        let live = random.chance(4, 5);
        let draw = |random: &mut Random, states, letters| match live {
            true => random.live_automaton(states, letters, 1),
            false => random.automaton(states, letters, 1),
        };
        let (left, right) = (draw(&mut random, m, letters), draw(&mut random, n, other_letters));
        let bound = random.below(17) as u64;
        let length = random.below(1200);
        let room = random.below(5);
        let (mut work, mut word) = (random.bytes(length), random.bytes(room));
        let (before, word_before) = (work.clone(), word.clone());
        let found = parts(contain(&left.file(), &right.file(), bound, &mut work, &mut word));
        let refused = if bound > 14 {
            Some((108, 0, 0))
        } else if letters != other_letters {
            Some((107, 0, 0))
        } else if !definitions::dead(&left).is_empty() {
            Some((106, 1, 0))
        } else if !definitions::dead(&right).is_empty() {
            Some((106, 2, 0))
        } else {
            None
        };
        if let Some(expected) = refused {
            assert_eq!(found, expected);
            assert!(work == before && word == word_before);
        } else {
            let expected = definitions::walk(&left, &right, bound as u8, &before, &word_before);
            assert_eq!(found, (expected.kind, expected.count as u64, expected.length as u64));
            assert!(work == expected.work && word == expected.word);
        }
        *kinds.entry(found.0).or_insert(0) += 1;
    }
    println!("calls by kind: {kinds:?}");
    assert_eq!(kinds.len(), 7);
}
