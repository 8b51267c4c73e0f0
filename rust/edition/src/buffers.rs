use crate::slots::SLOT_BYTES;
use crate::{contain, Entry, Offer, Outcome, Refusal, MAX_SLOTS, MAX_WORD};

/// A work buffer and a word buffer, for callers that do not keep their own.
///
/// The word buffer is long enough for every word, so no call with these buffers gives [`Refusal::Word`].
#[derive(Clone, Debug)]
pub struct Buffers {
    work: Vec<u8>,
    word: Vec<u8>,
}

impl Buffers {
    /// Buffers for as many slots as a walk can use: [`MAX_SLOTS`], 160 KiB.
    pub fn largest() -> Buffers {
        Buffers::with_slots(MAX_SLOTS)
    }

    /// Buffers for so many slots, at most [`MAX_SLOTS`].
    pub fn with_slots(slots: usize) -> Buffers {
        Buffers {
            work: vec![0; slots.min(MAX_SLOTS) * SLOT_BYTES],
            word: vec![0; MAX_WORD],
        }
    }

    /// As [`contain`].
    pub fn contain(&mut self, first: &[u8], second: &[u8], bound: u64) -> Result<Outcome<'_>, Refusal> {
        contain(first, second, bound, &mut self.work, &mut self.word)
    }

    /// As [`Entry::offer`].
    pub fn offer(&mut self, entry: &mut Entry, file: &[u8], bound: u64) -> Result<Offer<'_>, Refusal> {
        entry.offer(file, bound, &mut self.work, &mut self.word)
    }

    /// The work buffer as the last call left it.
    pub fn work(&self) -> &[u8] {
        &self.work
    }
}

impl Default for Buffers {
    fn default() -> Buffers {
        Buffers::largest()
    }
}
