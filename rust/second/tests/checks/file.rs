//! The file: the refusals 1 to 5 in their order, and the automaton that a file holds.

use second::automaton::Automaton;
use second::file::read;

use crate::random::Random;
use crate::worked::{f, full, g, h, j, Plain};

/// The refusal's number; 0 if there is none.
fn refusal(file: &[u8]) -> u8 {
    match read(file) {
        Ok(_) => 0,
        Err(refusal) => refusal.number(),
    }
}

/// A file of one state and one letter that goes on with the given bytes.
fn after_header(more: &[u8]) -> Vec<u8> {
    [&[0x41, 0x48, 1, 1, 0], more].concat()
}

#[test]
fn rows_1_to_5_have_their_examples() {
    assert_eq!(refusal(&[]), 1);
    assert_eq!(refusal(&[0x41, 0x46, 0x00]), 2);
    assert_eq!(refusal(&[0x41, 0x48, 0x00, 0x01, 0x00]), 3);
    assert_eq!(refusal(&after_header(&[0x41, 0x46, 0x01])), 4);
    assert_eq!(refusal(&after_header(&[0x41, 0x46, 0x00, 0x41, 0x46, 0x00])), 5);
}

#[test]
fn a_file_that_breaks_off_is_refused_with_1() {
    for automaton in [f(), g(), h(), j()] {
        let file = automaton.file();
        assert_eq!(refusal(&file), 0);
        for length in 0..file.len() {
            assert_eq!(refusal(&file[..length]), 1, "cut to {length} bytes");
        }
    }
}

#[test]
fn a_mark_stands_in_its_place() {
    assert_eq!(refusal(&[0x41]), 1);
    assert_eq!(refusal(&[0xFF]), 1);
    assert_eq!(refusal(&[0x41, 0x45]), 2);
    assert_eq!(refusal(&[0x41, 0x54, 0, 0, 0]), 2);
    assert_eq!(refusal(&[0x41, 0x00]), 2);
    assert_eq!(refusal(&[0x00, 0x48, 1, 1, 0]), 2);
    assert_eq!(refusal(&after_header(&[0x41])), 1);
    assert_eq!(refusal(&after_header(&[0x42])), 1);
    assert_eq!(refusal(&after_header(&[0x41, 0x48])), 2);
    assert_eq!(refusal(&after_header(&[0x41, 0x48, 1, 1, 0])), 2);
    assert_eq!(refusal(&after_header(&[0x41, 0x47])), 2);
    assert_eq!(refusal(&after_header(&[0x41, 0x45, 0x41])), 2);
    assert_eq!(refusal(&after_header(&[0x41, 0x45, 0x41, 0x45])), 2);
    assert_eq!(refusal(&after_header(&[0x41, 0x45])), 0);
}

#[test]
fn fields_are_present_before_values_are_tested_before_repeats() {
    assert_eq!(refusal(&[0x41, 0x48, 0x00]), 1);
    assert_eq!(refusal(&[0x41, 0x48, 0x00, 0x00]), 1);
    assert_eq!(refusal(&after_header(&[0x41, 0x54, 9])), 1);
    assert_eq!(refusal(&after_header(&[0x41, 0x54, 9, 9])), 1);
    assert_eq!(refusal(&after_header(&[0x41, 0x46])), 1);
    assert_eq!(refusal(&after_header(&[0x41, 0x54, 0, 0, 0, 0x41, 0x54, 0, 0, 1])), 4);
    assert_eq!(refusal(&after_header(&[0x41, 0x54, 0, 0, 0, 0x41, 0x54, 0, 0, 0])), 5);
    assert_eq!(refusal(&after_header(&[0x41, 0x54, 1, 0, 0])), 4);
    assert_eq!(refusal(&after_header(&[0x41, 0x54, 0, 1, 0])), 4);
}

#[test]
fn header_values_have_their_ranges() {
    for states in 0..=255_u8 {
        for letters in 0..=255_u8 {
            let within = (1..=32).contains(&states) && (1..=16).contains(&letters);
            let expected = if within { 0 } else { 3 };
            let file = [0x41, 0x48, states, letters, 0, 0x41, 0x45];
            assert_eq!(refusal(&file), expected, "{states} states, {letters} letters");
        }
    }
    for states in 1..=32_u8 {
        for initial in 0..=255_u8 {
            let expected = if initial < states { 0 } else { 3 };
            let file = [0x41, 0x48, states, 1, initial, 0x41, 0x45];
            assert_eq!(refusal(&file), expected, "{states} states, initial {initial}");
        }
    }
}

#[test]
fn the_first_fault_decides() {
    let repeat_then_unknown = [0x41, 0x46, 0, 0x41, 0x46, 0, 0x41, 0x46, 7];
    assert_eq!(refusal(&after_header(&repeat_then_unknown)), 5);
    let unknown_then_cut = [0x41, 0x46, 7, 0x41];
    assert_eq!(refusal(&after_header(&unknown_then_cut)), 4);
    let mark_then_repeat = [0x41, 0x00, 0x41, 0x46, 0, 0x41, 0x46, 0];
    assert_eq!(refusal(&after_header(&mark_then_repeat)), 2);
}

/// Holds the checker's automaton what the plain one lists?
fn same(automaton: &Automaton, plain: &Plain) -> bool {
    let bit = |set: u32, q: usize| set >> q & 1 == 1;
    let header =
        (automaton.states(), automaton.letters(), automaton.initial()) == (plain.states, plain.letters, plain.initial);
    let accepting = (0..32).all(|q| bit(automaton.accepting(), q) == plain.accepting.contains(&q));
    let transitions = (0..16).all(|a| {
        (0..32).all(|q| {
            let row = automaton.transitions(a)[q];
            (0..32).all(|r| bit(row, r) == plain.transitions.contains(&(q, a, r)))
        })
    });
    header && accepting && transitions && automaton.transition_count() as usize == plain.transitions.len()
}

#[test]
fn the_automaton_is_the_one_that_the_records_list_in_any_order() {
    let mut random = Random::new("records in any order", 0x5EED_0001);
    for _ in 0..300 {
        let (states, letters) = (1 + random.below(32), 1 + random.below(16));
        let plain = random.automaton(states, letters, 1);
        let file = random.shuffled_file(&plain);
        assert!(same(&read(&file).unwrap(), &plain));
    }
}

#[test]
fn the_longest_file_is_read() {
    let mut file = full(32, 16).file();
    assert_eq!(file.len(), 5 + 32 * 3 + 16_384 * 5 + 2);
    assert_eq!(read(&file).unwrap().transition_count(), 16_384);
    let end = file.len() - 2;
    file.splice(end..end, [0x41, 0x54, 31, 15, 31]);
    assert_eq!(refusal(&file), 5);
}

/// The document's order of faults once more, on the rest of a file and the records read so far.
fn literal_refusal(file: &[u8]) -> u8 {
    let mut rest = file;
    let mut header: Option<(u8, u8)> = None;
    let mut records: Vec<&[u8]> = Vec::new();
    loop {
        let (mark, fields) = match rest {
            [] | [_] => return 1,
            [first, second, fields @ ..] => ([*first, *second], fields),
        };
        let length = match (mark, header) {
            ([0x41, 0x48], None) => 3,
            ([0x41, 0x46], Some(_)) => 1,
            ([0x41, 0x54], Some(_)) => 3,
            ([0x41, 0x45], Some(_)) => return if fields.is_empty() { 0 } else { 2 },
            _ => return 2,
        };
        if fields.len() < length {
            return 1;
        }
        let record = &rest[..2 + length];
        match (header, &fields[..length]) {
            (None, &[n, k, initial]) => {
                if n == 0 || n > 32 || k == 0 || k > 16 || initial >= n {
                    return 3;
                }
                header = Some((n, k));
            }
            (Some((n, _)), &[q]) if q >= n => return 4,
            (Some((n, k)), &[q, a, r]) if q >= n || a >= k || r >= n => return 4,
            _ if records.contains(&record) => return 5,
            _ => records.push(record),
        }
        rest = &rest[2 + length..];
    }
}

#[test]
fn damaged_files_get_the_refusal_of_the_documents_order() {
    let mut random = Random::new("damaged files", 0x5EED_0002);
    let mut met = [0_u32; 6];
    for _ in 0..200_000 {
        let (states, letters) = (1 + random.below(3), 1 + random.below(2));
        let mut file = random.automaton(states, letters, 1).file();
        for _ in 0..random.below(3) {
            let place = random.below(file.len());
            let byte = [0x41, 0x45, 0x46, 0x48, 0x54, 0, 1, 2, 3, 16, 32, 33, 0xFF][random.below(13)];
            match random.below(4) {
                0 => file[place] = byte,
                1 => file.insert(place, byte),
                2 => drop(file.remove(place)),
                _ => {
                    let start = random.below(place + 1);
                    let piece = file[start..=place].to_vec();
                    file.splice(start..start, piece);
                }
            }
        }
        let expected = literal_refusal(&file);
        met[usize::from(expected)] += 1;
        assert_eq!(refusal(&file), expected, "{file:02X?}");
    }
    println!("files by refusal 0 to 5: {met:?}");
    assert!(met.iter().all(|&count| count > 1000));
}
