//! The fixed form of a file (S-1 of document 02): the header, accepting records by state, transition records by from, then letter, then
//! to, and the end.
//!
//! A file that can be read repeats no record, so its fixed form has the same records and the same length. Nothing is sorted: the records
//! are taken as the file has them, and each is copied to its own place, which follows from how many records go before it. An automaton
//! that came from no file is written record by record.

use crate::automaton::{members, singleton, Automaton, StateSet, MAX_LETTERS, MAX_STATES};
use crate::file::{self, ACCEPTING, END, HEADER, TRANSITION};
use crate::refusal::Refusal;

/// Bytes of a header.
const HEADER_BYTES: usize = 5;

/// Bytes of an accepting record.
const ACCEPTING_BYTES: usize = 3;

/// Bytes of a transition record.
const TRANSITION_BYTES: usize = 5;

/// Bytes of an end record.
const END_BYTES: usize = 2;

/// Writes the file in the fixed form, with one number: kind + 2^8 length. Kind is 0 written, 100 plus a refusal's number. With 16 the
/// length is the one needed, with other refusals 0.
pub fn file_write(file: &[u8], out: &mut [u8]) -> u64 {
    number(write(file, out))
}

/// The number of a call that writes a file: its length, or the refusal.
pub(crate) fn number(written: Result<usize, Refusal>) -> u64 {
    let (kind, length) = match written {
        Ok(length) => (0, length as u64),
        Err(refusal) => (refusal.kind(), refusal.file_length()),
    };
    kind + (length << 8)
}

/// Writes the file in the fixed form to the front of the buffer and gives its length. The refusals are 1-5 and 16; they change no byte.
pub fn write(file: &[u8], out: &mut [u8]) -> Result<usize, Refusal> {
    let automaton = file::read(file)?;
    let needed = file.len();
    let front = out.get_mut(..needed).ok_or(Refusal::Room { needed })?;
    let places = Places::new(&automaton);
    let (header, rest) = file.split_at(HEADER_BYTES);
    let (records, end) = rest.split_at(rest.len() - END_BYTES);
    front[..HEADER_BYTES].copy_from_slice(header);
    places.copy(records, front);
    front[needed - END_BYTES..].copy_from_slice(end);
    Ok(needed)
}

/// Writes the automaton in the fixed form to the front of the buffer and gives the file's length. The refusal is 16; it changes no byte.
pub fn write_automaton(automaton: &Automaton, out: &mut [u8]) -> Result<usize, Refusal> {
    let (accepting, transitions) = (automaton.accepting().count_ones(), automaton.transition_count());
    let records = ACCEPTING_BYTES * accepting as usize + TRANSITION_BYTES * transitions as usize;
    let needed = HEADER_BYTES + records + END_BYTES;
    let mut rest = out.get_mut(..needed).ok_or(Refusal::Room { needed })?;
    let header = [automaton.states(), automaton.letters(), automaton.initial()];
    append(&mut rest, HEADER, header.map(|value| value as u8));
    for state in members(automaton.accepting()) {
        append(&mut rest, ACCEPTING, [state as u8]);
    }
    for from in 0..automaton.states() {
        for letter in 0..automaton.letters() {
            for to in members(automaton.transitions(letter)[from]) {
                append(&mut rest, TRANSITION, [from, letter, to].map(|field| field as u8));
            }
        }
    }
    append(&mut rest, END, []);
    Ok(needed)
}

/// Puts a record at the front of the rest, which then begins behind it.
fn append<const N: usize>(rest: &mut &mut [u8], mark: [u8; 2], fields: [u8; N]) {
    let (record, behind) = std::mem::take(rest).split_at_mut(mark.len() + N);
    record[..2].copy_from_slice(&mark);
    record[2..].copy_from_slice(&fields);
    *rest = behind;
}

/// The places of an automaton's records in the fixed form.
struct Places<'a> {
    automaton: &'a Automaton,
    /// Where the accepting records end.
    accepting_end: usize,
    /// How many transition records go before those from a state on a letter.
    before: [[u16; MAX_LETTERS]; MAX_STATES],
}

impl Places<'_> {
    fn new(automaton: &Automaton) -> Places<'_> {
        let mut before = [[0; MAX_LETTERS]; MAX_STATES];
        let mut count = 0;
        for (from, letters) in before.iter_mut().enumerate().take(automaton.states()) {
            for (letter, row) in letters.iter_mut().enumerate().take(automaton.letters()) {
                *row = count;
                count += automaton.transitions(letter)[from].count_ones() as u16;
            }
        }
        Places {
            automaton,
            accepting_end: HEADER_BYTES + ACCEPTING_BYTES * automaton.accepting().count_ones() as usize,
            before,
        }
    }

    fn accepting(&self, state: u8) -> usize {
        HEADER_BYTES + ACCEPTING_BYTES * members_below(self.automaton.accepting(), state)
    }

    fn transition(&self, from: u8, letter: u8, to: u8) -> usize {
        let (from, letter) = (usize::from(from), usize::from(letter));
        let targets = self.automaton.transitions(letter)[from];
        let before = usize::from(self.before[from][letter]) + members_below(targets, to);
        self.accepting_end + TRANSITION_BYTES * before
    }

    /// Copies the records of the automaton's file to their places.
    fn copy(&self, mut records: &[u8], front: &mut [u8]) {
        while let Some((&mark, fields)) = records.split_first_chunk() {
            records = match (mark, fields) {
                (ACCEPTING, &[state, ref rest @ ..]) => {
                    put(front, self.accepting(state), [mark[0], mark[1], state]);
                    rest
                }
                (TRANSITION, &[from, letter, to, ref rest @ ..]) => {
                    let record = [mark[0], mark[1], from, letter, to];
                    put(front, self.transition(from, letter, to), record);
                    rest
                }
                _ => unreachable!("the file was read to its end"),
            };
        }
    }
}

fn put<const N: usize>(front: &mut [u8], place: usize, record: [u8; N]) {
    front[place..][..N].copy_from_slice(&record);
}

/// How many members of the set are lower than the state?
fn members_below(set: StateSet, state: u8) -> usize {
    (set & (singleton(state.into()) - 1)).count_ones() as usize
}
