//! Hanoi texts: the file that each gives, whole and in whatever buffer, and what is refused.

mod examples;

use std::fs;

use edition::{archive, from_hanoi, from_hanoi_into, is_hanoi, Argument, Entry, Refusal, ENTRY_BYTES, MAX_FILE};

const H: &[u8] = include_bytes!("../../../examples/h.ba");
const G: &[u8] = include_bytes!("../../../examples/g.ba");
const G_TEXT: &[u8] = include_bytes!("../../../examples/g.hoa");

/// A text for each refusal.
const TEXTS: [(&str, Refusal); 7] = [
    ("", Refusal::Text),
    (
        "HOA: v1 States: 1 Start: 0 AP: 1 \"a\" Acceptance: 1 Inf(0) --BODY-- State: 0 [1] 0",
        Refusal::Text,
    ),
    ("HOA: v1 States: 1 Start: 0 AP: 5", Refusal::Propositions),
    (
        "HOA: v1 States: 33",
        Refusal::Header {
            file: Some(Argument::Text),
        },
    ),
    (
        "HOA: v1 States: 2 Start: 2",
        Refusal::Header {
            file: Some(Argument::Text),
        },
    ),
    (
        "HOA: v1 States: 1 Start: 0 AP: 0 Acceptance: 1 Inf(0) --BODY-- State: 1",
        Refusal::Outside {
            file: Some(Argument::Text),
        },
    ),
    (
        "HOA: v1 States: 1 Start: 0 AP: 0 Acceptance: 1 Inf(0) --BODY-- State: 0 [f] 1",
        Refusal::Outside {
            file: Some(Argument::Text),
        },
    ),
];

#[test]
fn the_text_beside_each_example_gives_its_file() {
    let files = examples::all().into_iter();
    for (path, bytes) in files.filter(|(_, bytes)| bytes[3].is_power_of_two()) {
        let text = fs::read(path.with_extension("hoa")).expect("a text beside the file");
        assert_eq!(from_hanoi(&text), Ok(bytes), "{}", path.display());
    }
}

/// The text of an automaton of two states and two letters, whose accepting states and transitions are the bits of two numbers: an edge for each
/// transition, from the last to the first.
fn text(initial: u32, accepting: u32, transitions: u32) -> String {
    let mut text = format!("HOA: v1 States: 2 Start: {initial} AP: 1 \"p\" Acceptance: 1 Inf(0) --BODY--");
    for state in [1, 0] {
        let accepts = if accepting >> state & 1 == 1 { "{0}" } else { "" };
        text += &format!(" State: {state} {accepts}");
        let triples = (4 * state..4 * state + 4).rev();
        for triple in triples.filter(|triple| transitions >> triple & 1 == 1) {
            text += [" [!0]", " [0]"][triple >> 1 & 1];
            text += &format!(" {}", triple & 1);
        }
    }
    text + " --END--"
}

/// Most of them have dead states, and many have states that are not reached.
#[test]
fn all_automata_of_two_states_and_two_letters_are_read_from_texts() {
    for number in 0..2u32 << 10 {
        let (initial, accepting, transitions) = (number >> 10, number >> 8 & 3, number & 255);
        let mut file = vec![b'A', b'H', 2, 2, initial as u8];
        for state in (0..2).filter(|state| accepting >> state & 1 == 1) {
            file.extend([b'A', b'F', state]);
        }
        for triple in (0..8u8).filter(|triple| transitions >> triple & 1 == 1) {
            file.extend([b'A', b'T', triple >> 2, triple >> 1 & 1, triple & 1]);
        }
        file.extend(b"AE");
        let text = text(initial, accepting, transitions);
        assert_eq!(from_hanoi(text.as_bytes()), Ok(file), "{text}");
    }
}

#[test]
fn the_largest_automaton_is_read_whole() {
    let mut text =
        "HOA: v1 States: 32 Start: 31 AP: 4 \"a\" \"b\" \"c\" \"d\" Acceptance: 1 Inf(0) --BODY--".to_string();
    for state in 0..32 {
        text += &format!(" State: {state} {{0}}");
        text.extend((0..32).map(|target| format!(" [t] {target}")));
    }
    text += "--END--";
    let file = from_hanoi(text.as_bytes()).expect("the text is in the subset");
    assert_eq!(file.len(), MAX_FILE);
    assert_eq!(edition::write(&file), Ok(file));
    let short = from_hanoi_into(text.as_bytes(), &mut vec![0; MAX_FILE - 1]);
    assert_eq!(short, Err(Refusal::Room { needed: 82_023 }));
}

/// The answer, and what is left of a buffer of `room` bytes that were all 7.
fn called(text: &[u8], room: usize) -> (Result<usize, Refusal>, Vec<u8>) {
    let mut out = vec![7; room];
    (from_hanoi_into(text, &mut out), out)
}

#[test]
fn a_buffer_is_filled_to_the_files_length_and_no_further() {
    for room in G.len()..G.len() + 3 {
        let past = vec![7; room - G.len()];
        assert_eq!(called(G_TEXT, room), (Ok(G.len()), [G, &past].concat()));
    }
}

#[test]
fn a_shorter_buffer_is_refused_with_the_length_needed_and_left_alone() {
    for room in 0..G.len() {
        assert_eq!(called(G_TEXT, room), (Err(Refusal::Room { needed: 53 }), vec![7; room]));
    }
}

#[test]
fn a_texts_own_fault_comes_first_and_leaves_the_buffer_alone() {
    for (text, refusal) in TEXTS {
        assert_eq!(from_hanoi(text.as_bytes()), Err(refusal), "{text}");
        for room in [0, 100] {
            assert_eq!(called(text.as_bytes(), room), (Err(refusal), vec![7; room]), "{text}");
        }
    }
    let end = G_TEXT.trim_ascii_end().len();
    for length in 0..end {
        assert_eq!(called(&G_TEXT[..length], 100), (Err(Refusal::Text), vec![7; 100]));
    }
}

#[test]
fn the_plain_numbers_are_those_of_the_reference() {
    let h = b"HOA: v1 States: 1 Start: 0 AP: 0 Acceptance: 1 Inf(0) --BODY-- State: 0 {0} [t] 0 --END--";
    let mut out = [0; 15];
    assert_eq!(archive::hanoi_write(h, &mut out), 3_840);
    assert_eq!(out, H);
    assert_eq!(archive::hanoi_write(h, &mut out[..14]), 3_956);
    let numbers = TEXTS.map(|(text, _)| archive::hanoi_write(text.as_bytes(), &mut out));
    assert_eq!(numbers, [117, 117, 118, 103, 103, 104, 104]);
}

#[test]
fn sentences_speak_of_the_text() {
    for (_, refusal) in TEXTS {
        assert!(refusal.to_string().starts_with("the text "), "{refusal}");
        assert!(refusal.walk().is_none());
    }
    let header = Refusal::Header {
        file: Some(Argument::Text),
    };
    assert_eq!(header.to_string(), "the text has States or Start outside its range");
    assert_eq!(header.advice(), "give States from 1 to 32, and a Start below States");
    let file = Refusal::Header { file: None };
    assert_eq!(file.to_string(), "the file has a header value outside its range");
}

/// The first byte that is no white space decides, before the length does.
#[test]
fn a_text_is_told_from_a_file_and_from_an_entry_by_its_first_letter() {
    for bytes in [b"HOA: v1".as_slice(), b" \t\r\nHOA:", b"H"] {
        assert!(is_hanoi(bytes), "{bytes:?}");
    }
    for bytes in [
        b"".as_slice(),
        b" \n",
        b"AH",
        b"hoa:",
        b"\0HOA:",
        b"\x01H",
        b"\x0BHOA:",
        b"\x0CHOA:",
        b"x H",
    ] {
        assert!(!is_hanoi(bytes), "{bytes:?}");
    }
    let mut text = [b' '; ENTRY_BYTES];
    assert!(Entry::is_meant(&text) && !is_hanoi(&text));
    text[ENTRY_BYTES - 1] = b'H';
    assert!(!Entry::is_meant(&text) && is_hanoi(&text));
    assert!(!Entry::is_meant(G_TEXT) && is_hanoi(G_TEXT));
    for (path, bytes) in examples::all() {
        assert!(!is_hanoi(&bytes), "{}", path.display());
    }
}
