//! Listing: the document's two lines, the other outcomes, and the percentage.

use second::listing;
use second::listing::percent;

use crate::worked::{everything, f, g, h, j, window, Plain};

/// The printed line as text.
fn line(input: &[u8], first: &[u8], offer: &[u8]) -> String {
    String::from_utf8(listing(input, first, offer)).expect("the line is text")
}

/// The automata and the bound print this line.
fn prints(bound: u8, [held, offer]: [Plain; 2], text: &str) {
    assert_eq!(line(&[bound], &held.file(), &offer.file()), text);
}

#[test]
fn the_documents_two_lines() {
    prints(1, [f(), g()], "taken 1 states 3 of 4 saved 25 walks 5 8\n");
    prints(0, [f(), g()], "back 0 states 4 of 4 saved 0 walks 4 2 word 0\n");
}

#[test]
fn an_empty_word_ends_the_line_at_word() {
    prints(0, [j(), h()], "back 0 states 2 of 2 saved 0 walks 2 0 word\n");
    prints(1, [j(), h()], "taken 1 states 1 of 2 saved 50 walks 2 2\n");
}

#[test]
fn a_walk_that_is_not_made_has_a_dash() {
    // Twelve letters, so that a letter of two digits shows; the offer lacks letter 11 after letter 10.
    let held = Plain {
        states: 3,
        letters: 12,
        initial: 0,
        accepting: vec![0, 1, 2],
        transitions: (0..12).flat_map(|a| [(0, a, 1), (1, a, 2), (2, a, 2)]).collect(),
    };
    let mut offer = Plain {
        states: 2,
        letters: 12,
        initial: 0,
        accepting: vec![0, 1],
        transitions: Vec::new(),
    };
    for letter in 0..12 {
        offer.transitions.push((0, letter, if letter == 10 { 1 } else { 0 }));
        if letter != 11 {
            offer.transitions.push((1, letter, 0));
        }
    }
    let found = line(&[0], &held.file(), &offer.file());
    assert!(found.starts_with("forward 0 states 3 of 3 saved 0 walks "), "{found}");
    assert!(found.ends_with(" - word 10 11\n"), "{found}");
}

#[test]
fn refusals_print_their_number() {
    let (f, g) = (f().file(), g().file());
    assert_eq!(line(&[1], &[], &g), "refused 1\n");
    assert_eq!(line(&[1], &f, &[]), "refused 1\n");
    assert_eq!(line(&[1], &[0x41, 0x48, 1, 1, 0, 0x41, 0x45], &g), "refused 6\n");
    assert_eq!(line(&[1], &f, &f), "refused 14\n");
    assert_eq!(line(&[1], &f, &h().file()), "refused 7\n");
    assert_eq!(line(&[15], &f, &g), "refused 8\n");
    assert_eq!(line(&[15], &f, &[]), "refused 1\n");
    assert_eq!(line(&[255], &f, &g), "refused 8\n");
}

#[test]
fn a_walk_beyond_1638_slots_is_refused() {
    // In the forward walk the offer stands on the right, so the walk lists its sets of states.
    let offer = window(11);
    let mut held = everything(2);
    held.states = 13;
    assert_eq!(line(&[0], &held.file(), &offer.file()), "refused 10\n");
    let offer = window(10);
    let found = line(&[0], &held.file(), &offer.file());
    assert_eq!(found, "taken 1 states 11 of 13 saved 15 walks 1024 11\n");
}

#[test]
fn usage_is_tested_first_and_then_the_lengths() {
    let (f, g) = (f().file(), g().file());
    let long = vec![0; 65_537];
    assert_eq!(line(&[], &f, &g), "usage\n");
    assert_eq!(line(&[1, 1], &f, &g), "usage\n");
    assert_eq!(line(b"1\n", &long, &g), "usage\n");
    assert_eq!(line(&[1], &long, &g), "long\n");
    assert_eq!(line(&[1], &f, &long), "long\n");
    assert_eq!(line(&[1], &[], &long), "long\n");
    assert_eq!(line(&[99], &long[1..], &long[1..]), "refused 2\n");
}

#[test]
fn halves_of_a_percent_go_up() {
    assert_eq!(percent(1, 8), 13);
    assert_eq!(percent(3, 8), 38);
    assert_eq!(percent(1, 3), 33);
    assert_eq!(percent(2, 3), 67);
    assert_eq!(percent(1, 32), 3);
    assert_eq!(percent(31, 32), 97);
    for whole in 1..=32 {
        assert_eq!(percent(0, whole), 0);
        for part in 0..whole {
            // The nearest whole number; of two that are equally near, the higher one.
            let distance = |p: usize| (p * whole).abs_diff(100 * part);
            let nearest = (0..=100).rev().min_by_key(|&p| distance(p)).unwrap();
            assert_eq!(percent(part, whole), nearest, "{part} of {whole}");
        }
    }
}
