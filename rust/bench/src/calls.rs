//! Calls on the public functions of a checker, and the buffers that they use.

use differential::writing::LONGEST;
use second::walk::{MAX_SLOTS, SLOT_BYTES};
use second::ENTRY_BYTES;

use crate::checkers::Checker;

/// Bytes of the word buffer.
const WORD_BYTES: usize = 4096;

/// What is called.
pub enum Call {
    /// Contain, with a work buffer of so many slots.
    Contain {
        files: [Vec<u8>; 2],
        bound: u64,
        slots: usize,
    },
    /// An open of a fresh entry with the first file, then an offer of each other file.
    History { files: Vec<Vec<u8>>, bound: u64 },
    /// A verdict of the entry in these bytes on a stem and a loop.
    Verdict {
        entry: Vec<u8>,
        stem: Vec<u8>,
        cycle: Vec<u8>,
    },
    /// A write of a file with room for the longest one.
    Write { file: Vec<u8> },
    /// A write of the automaton of a Hanoi text, with the same room.
    Hanoi { text: Vec<u8> },
}

/// What calls write. It is filled once; later calls find what earlier ones left.
#[derive(PartialEq, Eq)]
pub struct Buffers {
    work: Vec<u8>,
    word: Vec<u8>,
    entry: Vec<u8>,
    out: Vec<u8>,
    /// The number of each call.
    pub numbers: Vec<u64>,
}

impl Buffers {
    pub fn filled() -> Buffers {
        Buffers {
            work: vec![0xA5; MAX_SLOTS * SLOT_BYTES],
            word: vec![0xA5; WORD_BYTES],
            entry: vec![0; ENTRY_BYTES],
            out: vec![0xA5; LONGEST],
            numbers: Vec::new(),
        }
    }
}

impl Call {
    /// Bytes of the file or text that is to be written; 0 with other calls.
    pub fn bytes(&self) -> usize {
        match self {
            Call::Write { file: input } | Call::Hanoi { text: input } => input.len(),
            _ => 0,
        }
    }

    /// Makes the call and appends its numbers.
    pub fn make(&self, checker: &Checker, buffers: &mut Buffers) {
        let Buffers {
            work,
            word,
            entry,
            out,
            numbers,
        } = buffers;
        match self {
            Call::Contain { files, bound, slots } => {
                let work = &mut work[..slots * SLOT_BYTES];
                numbers.push((checker.contain)(&files[0], &files[1], *bound, work, word));
            }
            Call::History { files, bound } => {
                entry.fill(0);
                numbers.push((checker.entry.open)(entry, &files[0]));
                for file in &files[1..] {
                    numbers.push((checker.entry.offer)(entry, file, *bound, work, word));
                }
            }
            Call::Verdict { entry, stem, cycle } => numbers.push((checker.entry.verdict)(entry, stem, cycle)),
            Call::Write { file } => numbers.push((checker.write)(file, out)),
            Call::Hanoi { text } => numbers.push((checker.hanoi)(text, out)),
        }
    }
}

/// Makes all calls once; the numbers of earlier calls are dropped.
pub fn make_all(calls: &[Call], checker: &Checker, buffers: &mut Buffers) {
    buffers.numbers.clear();
    for call in calls {
        call.make(checker, buffers);
    }
}
