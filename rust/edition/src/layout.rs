//! Where the fields stand in automaton files, entries and slots. Whatever this crate looks up in such bytes, for display, it looks up
//! here; the archive has its own, proved reading of them.

use std::iter;

/// The most states of an automaton.
pub const STATES: usize = 32;

/// The most letters of an automaton.
pub const LETTERS: usize = 16;

/// The bytes of an entry.
pub const ENTRY_BYTES: usize = 2061;

/// The bytes of a slot.
pub const SLOT_BYTES: usize = 40;

const SET_BYTES: usize = STATES / 8;
const HEADER_BYTES: usize = 5;

/// A record of an automaton file past its header.
pub(crate) enum Record {
    Accepting(u8),
    Transition(u8, u8, u8),
}

/// States, letters and initial state of a well-formed file.
pub(crate) fn header(file: &[u8]) -> [u8; 3] {
    [file[2], file[3], file[4]]
}

/// The records of a well-formed file from its header to its end.
pub(crate) fn records(file: &[u8]) -> impl Iterator<Item = Record> + '_ {
    let mut rest = &file[HEADER_BYTES..];
    iter::from_fn(move || {
        let (record, length) = match *rest {
            [b'A', b'F', state, ..] => (Record::Accepting(state), 3),
            [b'A', b'T', from, letter, to, ..] => (Record::Transition(from, letter, to), 5),
            _ => return None,
        };
        rest = &rest[length..];
        Some(record)
    })
}

/// Whether bytes are meant as a Hanoi text: every one begins with 48, white space aside, and no automaton file and no entry does.
pub(crate) fn is_hanoi_meant(bytes: &[u8]) -> bool {
    bytes.iter().find(|byte| !b" \t\n\r".contains(byte)) == Some(&b'H')
}

/// Whether bytes are meant as an entry: every automaton file begins with 41, and every entry with 00 or 01.
pub(crate) fn is_entry_meant(bytes: &[u8]) -> bool {
    match bytes.first() {
        Some(0 | 1) => true,
        Some(b'A') | None => false,
        Some(_) if is_hanoi_meant(bytes) => false,
        Some(_) => bytes.len() == ENTRY_BYTES,
    }
}

/// Whether the entry holds an edition.
pub(crate) fn entry_is_open(entry: &[u8; ENTRY_BYTES]) -> bool {
    entry[0] == 1
}

/// States, letters and initial state of the held automaton.
pub(crate) fn entry_header(entry: &[u8; ENTRY_BYTES]) -> [u8; 3] {
    [entry[1], entry[2], entry[3]]
}

/// The states of the first edition.
pub(crate) fn entry_first_states(entry: &[u8; ENTRY_BYTES]) -> u8 {
    entry[4]
}

/// The edition number.
pub(crate) fn entry_edition(entry: &[u8; ENTRY_BYTES]) -> u32 {
    four_bytes(entry, 5)
}

/// The accepting states of the held automaton.
pub(crate) fn entry_accepting(entry: &[u8; ENTRY_BYTES]) -> u32 {
    four_bytes(entry, 9)
}

/// The targets of a state on a letter, in the held automaton.
pub(crate) fn entry_targets(entry: &[u8; ENTRY_BYTES], from: usize, letter: usize) -> u32 {
    four_bytes(entry, 13 + (from * LETTERS + letter) * SET_BYTES)
}

/// The number of four bytes from this place on, low byte first; a set of states is one.
fn four_bytes(bytes: &[u8], place: usize) -> u32 {
    u32::from_le_bytes(std::array::from_fn(|byte| bytes[place + byte]))
}

/// The left state of a slot.
pub(crate) fn slot_state(slot: &[u8]) -> u8 {
    slot[0]
}

/// The counters of a slot.
pub(crate) fn slot_counters(slot: &[u8]) -> [u8; STATES] {
    std::array::from_fn(|right| slot[1 + right])
}

/// The parent of a slot that is not slot 0, and the letter of the step from it.
pub(crate) fn slot_parent(slot: &[u8]) -> (u16, u8) {
    (u16::from_le_bytes([slot[34], slot[35]]), slot[33])
}
