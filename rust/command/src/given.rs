//! Automaton files as they are given: themselves, or as Hanoi texts, of which the kernel makes such files.

use crate::answer::Failure;
use crate::files::{Source, LONGEST};
use crate::hanoi;

/// An automaton file.
pub struct Given {
    /// The operand that names it, or names the text that it is made of.
    pub operand: &'static str,
    pub bytes: Vec<u8>,
    /// Whether a Hanoi text was given.
    pub is_text: bool,
}

impl Given {
    /// The file that comes from there.
    pub fn read(source: Source<'_>, operand: &'static str) -> Result<Given, Failure> {
        Given::of(source.whole()?, operand)
    }

    /// As `read`, but of an automaton file not more than `length` bytes.
    pub fn read_front(source: Source<'_>, operand: &'static str, length: usize) -> Result<Given, Failure> {
        let mut bytes = source.front(LONGEST + 1)?;
        if !edition::is_hanoi(&bytes) {
            bytes.truncate(length);
        }
        source.limited(bytes).and_then(|bytes| Given::of(bytes, operand))
    }

    /// The file of these bytes.
    pub fn of(bytes: Vec<u8>, operand: &'static str) -> Result<Given, Failure> {
        let is_text = edition::is_hanoi(&bytes);
        let bytes = match is_text {
            true => hanoi::file_of(&bytes, operand).map_err(|answer| Box::new(answer.on_texts(&[operand])))?,
            false => bytes,
        };
        Ok(Given {
            operand,
            bytes,
            is_text,
        })
    }
}
