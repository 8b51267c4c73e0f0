//! Files in the fixed form: from whatever order of records, whole, and in whatever buffer.

mod examples;

use edition::{archive, write, write_into, Refusal, MAX_FILE};

const G: &[u8] = include_bytes!("../../../examples/g.ba");
const H: &[u8] = include_bytes!("../../../examples/h.ba");

/// A file for each of refusals 1 to 5.
const FILES: [(&[u8], Refusal); 5] = [
    (b"", Refusal::Ends { file: None }),
    (b"AF\x00", Refusal::Mark { file: None }),
    (b"AH\x00\x01\x00", Refusal::Header { file: None }),
    (b"AH\x01\x01\x00AF\x01", Refusal::Outside { file: None }),
    (b"AH\x01\x01\x00AF\x00AF\x00", Refusal::Repeated { file: None }),
];

/// The file of a header and records.
fn file(header: [u8; 3], records: &[Vec<u8>]) -> Vec<u8> {
    [b"AH".as_slice(), &header, &records.concat(), b"AE"].concat()
}

/// The records of the fixed form: accepting states, then transitions as (from, letter, to), both in order.
fn records(accepting: impl Iterator<Item = u8>, transitions: impl Iterator<Item = [u8; 3]>) -> Vec<Vec<u8>> {
    let accepting = accepting.map(|state| vec![b'A', b'F', state]);
    let transitions = transitions.map(|[from, letter, to]| vec![b'A', b'T', from, letter, to]);
    accepting.chain(transitions).collect()
}

/// The records from the last to the first, and those of odd places before those of even places.
fn reordered(records: &[Vec<u8>]) -> [Vec<Vec<u8>>; 2] {
    let backwards = records.iter().rev().cloned().collect();
    let odd = records.iter().skip(1).step_by(2);
    [backwards, odd.chain(records.iter().step_by(2)).cloned().collect()]
}

/// The file of these records, which are those of the fixed form, is written as it is, and so are others with the same records.
fn check(header: [u8; 3], records: &[Vec<u8>]) {
    let fixed = file(header, records);
    assert_eq!(write(&fixed).as_ref(), Ok(&fixed));
    for other in reordered(records) {
        let other = file(header, &other);
        assert_eq!(write(&other).as_ref(), Ok(&fixed), "{other:?}");
    }
}

/// Most of them have dead states, and many have states that are not reached.
#[test]
fn all_automata_of_two_states_and_two_letters_are_written_in_one_form() {
    for number in 0..2u32 << 10 {
        let (initial, accepting, transitions) = (number >> 10, number >> 8 & 3, number & 255);
        let states = (0..2).filter(|state| accepting >> state & 1 == 1);
        let triples = (0..8).filter(|triple| transitions >> triple & 1 == 1);
        let records = records(
            states,
            triples.map(|triple| [triple >> 2, triple >> 1 & 1, triple & 1].map(|field| field as u8)),
        );
        check([2, 2, initial as u8], &records);
    }
}

#[test]
fn the_largest_automaton_is_written_whole() {
    let triples = (0..16384u32).map(|number| [number >> 9, number >> 5 & 15, number & 31].map(|field| field as u8));
    let records = records(0..32, triples);
    let fixed = file([32, 16, 31], &records);
    assert_eq!(fixed.len(), MAX_FILE);
    check([32, 16, 31], &records);
    let short = write_into(&fixed, &mut vec![0; MAX_FILE - 1]);
    assert_eq!(short, Err(Refusal::Room { needed: 82_023 }));
}

#[test]
fn the_examples_are_in_the_fixed_form() {
    for (path, bytes) in examples::all() {
        assert_eq!(write(&bytes), Ok(bytes), "{}", path.display());
    }
}

/// The answer, and what is left of a buffer of `room` bytes that were all 7.
fn called(file: &[u8], room: usize) -> (Result<usize, Refusal>, Vec<u8>) {
    let mut out = vec![7; room];
    (write_into(file, &mut out), out)
}

#[test]
fn a_buffer_is_filled_to_the_files_length_and_no_further() {
    for room in G.len()..G.len() + 3 {
        let past = vec![7; room - G.len()];
        assert_eq!(called(G, room), (Ok(G.len()), [G, &past].concat()));
    }
}

#[test]
fn a_shorter_buffer_is_refused_with_the_length_needed_and_left_alone() {
    for room in 0..G.len() {
        assert_eq!(called(G, room), (Err(Refusal::Room { needed: 53 }), vec![7; room]));
    }
}

#[test]
fn a_files_own_fault_comes_first_and_leaves_the_buffer_alone() {
    for (file, refusal) in FILES {
        assert_eq!(write(file), Err(refusal));
        for room in [0, 100] {
            assert_eq!(called(file, room), (Err(refusal), vec![7; room]));
        }
    }
    for length in 0..G.len() {
        assert_eq!(
            called(&G[..length], 100),
            (Err(Refusal::Ends { file: None }), vec![7; 100])
        );
    }
}

#[test]
fn the_plain_numbers_are_those_of_the_reference() {
    let mut out = [0; 15];
    assert_eq!(archive::file_write(H, &mut out), 3_840);
    assert_eq!(archive::file_write(H, &mut out[..14]), 3_956);
    for (place, (file, _)) in FILES.iter().enumerate() {
        assert_eq!(archive::file_write(file, &mut out), 101 + place as u64);
    }
}

#[test]
fn the_sentence_and_the_advice_have_the_length() {
    let room = Refusal::Room { needed: 15 };
    assert_eq!((room.number(), room.file(), room.walk()), (16, None, None));
    assert_eq!(
        room.to_string(),
        "the file has 15 bytes in the fixed form, and the output buffer is shorter"
    );
    assert_eq!(
        room.advice(),
        "give an output buffer of 15 bytes or more; 82,023 are always enough"
    );
}
