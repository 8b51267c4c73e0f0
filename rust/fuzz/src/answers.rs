//! Answers as coverage: the archive is not instrumented, so each kind of answer of each call, with the sizes of its numbers, counts as a place
//! of its own for a fuzzer that knows this section.

use std::sync::atomic::{AtomicU8, Ordering};

/// Contain, open, offer, verdict, file_write, hanoi_write.
const CALLS: usize = 6;

/// Three kinds and eighteen refusals.
const KINDS: usize = 21;

/// Parts of up to 16 bits, by their bits.
const SIZES: usize = 17;

/// Which of the numbers beside the kind.
const PARTS: usize = 3;

const PLACES: usize = CALLS * KINDS * SIZES * PARTS;

#[link_section = "__libfuzzer_extra_counters"]
static SEEN: [AtomicU8; PLACES] = [const { AtomicU8::new(0) }; PLACES];

/// The call's place among the six.
#[derive(Clone, Copy)]
pub enum Call {
    Contain,
    Open,
    Offer,
    Verdict,
    Write,
    Hanoi,
}

/// Notes the number of a call: its kind, and three 16-bit parts above the kind.
pub fn note(call: Call, number: u64) {
    let kind = match (number & 0xFF) as usize {
        kind @ 0..=2 => kind,
        refused => refused - 98,
    };
    for part in 0..PARTS {
        let value = number >> (8 + 16 * part) & 0xFFFF;
        let size = (u64::BITS - value.leading_zeros()) as usize;
        let place = ((call as usize * KINDS + kind) * PARTS + part) * SIZES + size;
        SEEN[place].store(1, Ordering::Relaxed);
    }
}
