//! The fixed form: H and G byte by byte, the check order, every length of the buffer, and files in any order against the definition.

use std::collections::BTreeSet;

use second::file::read;
use second::file_write;

use crate::definitions;
use crate::faulty::{dead, faulty};
use crate::random::Random;
use crate::worked::{all, f, full, g, h, j, Plain};

/// What the buffer holds before a call; no byte of a file.
const FILL: u8 = 0xCD;

/// The number of a call with so many bytes of room, and the buffer afterwards.
fn ask(file: &[u8], room: usize) -> (u64, Vec<u8>) {
    let mut out = vec![FILL; room];
    (file_write(file, &mut out), out)
}

/// The file as it is written where there is more room than needed.
fn written(file: &[u8]) -> Vec<u8> {
    let (number, mut out) = ask(file, file.len() + 9);
    assert_eq!(number & 0xFF, 0, "{file:02X?}");
    let rest = out.split_off((number >> 8) as usize);
    assert!(rest.iter().all(|&byte| byte == FILL), "{file:02X?}");
    out
}

/// Without accepting states and transitions.
fn bare(states: usize, letters: usize, initial: usize) -> Plain {
    Plain {
        states,
        letters,
        initial,
        accepting: Vec::new(),
        transitions: Vec::new(),
    }
}

#[test]
fn h_is_written_as_it_is() {
    let file = b"AH\x01\x01\x00AF\x00AT\x00\x00\x00AE".to_vec();
    assert_eq!(h().file(), file);
    assert_eq!(ask(&file, 15), (256 * 15, file));
}

#[test]
fn g_in_any_order_is_written_by_from_then_letter_then_to() {
    let mut records = g().records();
    let expected = [
        b"AH\x03\x02\x00AF\x01AF\x02".as_slice(),
        b"AT\x00\x00\x00AT\x00\x00\x02AT\x00\x01\x00AT\x00\x01\x01",
        b"AT\x01\x00\x01AT\x01\x00\x02AT\x02\x01\x01AT\x02\x01\x02AE",
    ]
    .concat();
    for _ in 0..records.len() {
        records.rotate_left(1);
        assert_eq!(written(&g().file_of(&records)), expected);
    }
    records.reverse();
    assert_eq!(written(&g().file_of(&records)), expected);
}

#[test]
fn h_with_14_bytes_is_refused_with_16_and_the_length_needed() {
    assert_eq!(ask(&h().file(), 14), (116 + 256 * 15, vec![FILL; 14]));
}

#[test]
fn the_file_is_checked_before_the_room() {
    for (row, file) in faulty().iter().enumerate() {
        for room in [0, 1, 5, 100] {
            assert_eq!(ask(file, room), (101 + row as u64, vec![FILL; room]));
        }
    }
}

#[test]
fn dead_and_unreachable_states_are_written_too() {
    assert_eq!(ask(&dead(), 7), (256 * 7, dead()));
    let mut automaton = j();
    automaton.states = 4;
    automaton.initial = 2;
    automaton.transitions.extend([(2, 0, 3), (3, 0, 2)]);
    assert_eq!(definitions::dead(&automaton), [2, 3]);
    assert_eq!(written(&automaton.file()), automaton.file());
}

#[test]
fn the_buffer_may_be_exact_or_longer_and_not_shorter() {
    for automaton in [f(), g(), h(), j(), bare(1, 1, 0), bare(32, 16, 31), full(2, 3)] {
        let file = automaton.file();
        let needed = file.len();
        for room in 0..needed {
            assert_eq!(ask(&file, room), (116 + 256 * needed as u64, vec![FILL; room]));
        }
        for room in needed..needed + 20 {
            let rest = vec![FILL; room - needed];
            let expected = [definitions::written(&automaton), rest].concat();
            assert_eq!(ask(&file, room), (256 * needed as u64, expected));
        }
    }
}

#[test]
fn the_longest_file_has_82_023_bytes() {
    let mut random = Random::new("the longest file", 0x5EED_0601);
    let longest = full(32, 16);
    let file = random.shuffled_file(&longest);
    assert_ne!(file, longest.file());
    assert_eq!(ask(&file, 82_022), (116 + 256 * 82_023, vec![FILL; 82_022]));
    assert_eq!(ask(&file, 82_023), (256 * 82_023, longest.file()));
    assert_eq!(written(&file), longest.file());
}

#[test]
fn files_are_written_as_the_definition_says_whatever_their_order() {
    let mut random = Random::new("files in any order", 0x5EED_0602);
    let mut with_dead_states = 0;
    for round in 0..400 {
        let (states, letters) = (1 + random.below(32), 1 + random.below(16));
        let automaton = random.automaton(states, letters, round % 3);
        with_dead_states += usize::from(!definitions::dead(&automaton).is_empty());
        let expected = definitions::written(&automaton);
        for _ in 0..2 {
            let file = random.shuffled_file(&automaton);
            assert_eq!(written(&file), expected, "{automaton:?}");
        }
        assert_eq!(read(&expected), Ok(automaton.read()), "{automaton:?}");
        assert_eq!(written(&expected), expected, "{automaton:?}");
    }
    println!("{with_dead_states} of 400 automata have dead states");
    assert!(with_dead_states > 100);
}

#[test]
fn small_automata_are_written_alike_only_if_they_are_the_same() {
    let sizes = [(1, 1), (2, 1), (3, 1), (1, 2), (2, 2)];
    let automata: Vec<Plain> = sizes.into_iter().flat_map(|(n, k)| all(n, k)).collect();
    let files: BTreeSet<Vec<u8>> = automata.iter().map(|automaton| written(&automaton.file())).collect();
    println!("{} automata", automata.len());
    assert_eq!(files.len(), automata.len());
}

#[test]
fn files_that_cannot_be_read_leave_the_buffer_alone() {
    let file = g().file();
    let cuts = (0..file.len()).map(|length| file[..length].to_vec());
    let changes = (0..file.len()).flat_map(|place| {
        let file = file.clone();
        (1..=255).map(move |change: u8| {
            let mut changed = file.clone();
            changed[place] ^= change;
            changed
        })
    });
    let mut met = [0_u32; 6];
    for spoilt in cuts.chain(changes) {
        let (number, out) = ask(&spoilt, 80);
        let refusal = read(&spoilt).map_or_else(|refusal| refusal.number(), |_| 0);
        met[usize::from(refusal)] += 1;
        if refusal != 0 {
            assert_eq!(
                (number, out),
                (100 + u64::from(refusal), vec![FILL; 80]),
                "{spoilt:02X?}"
            );
        }
    }
    println!("files by refusal 0 to 5: {met:?}");
    assert!(met.iter().all(|&count| count > 0));
}
