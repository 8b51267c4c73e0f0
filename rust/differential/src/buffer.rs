//! Buffers that are lent to a call: filled with bytes other than zero, with a guard on both sides.

use crate::random::Random;

/// Least bytes of a guard.
const GUARD: usize = 64;

#[derive(Clone, PartialEq, Eq)]
pub struct Buffer {
    bytes: Vec<u8>,
    start: usize,
    length: usize,
}

impl Buffer {
    /// A filled buffer of this length, at any alignment.
    pub fn filled(random: &mut Random, length: usize) -> Buffer {
        let start = GUARD + random.below(8);
        let salt = random.below(255);
        let bytes = (0..start + length + GUARD).map(|place| ((place * 37 + salt) % 255 + 1) as u8);
        Buffer {
            bytes: bytes.collect(),
            start,
            length,
        }
    }

    /// A buffer with these bytes between its guards.
    pub fn holding(random: &mut Random, contents: &[u8]) -> Buffer {
        let mut buffer = Buffer::filled(random, contents.len());
        buffer.lent().copy_from_slice(contents);
        buffer
    }

    /// The part between the guards, to be lent.
    pub fn lent(&mut self) -> &mut [u8] {
        &mut self.bytes[self.start..][..self.length]
    }

    /// The part between the guards.
    pub fn contents(&self) -> &[u8] {
        &self.bytes[self.start..][..self.length]
    }

    /// The first place at which two buffers of one origin differ, counted from the lent part's start; below 0 in the front guard.
    pub fn difference(&self, other: &Buffer) -> Option<isize> {
        let place = self.bytes.iter().zip(&other.bytes).position(|(one, two)| one != two)?;
        Some(place as isize - self.start as isize)
    }
}
