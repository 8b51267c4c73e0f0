//! The proved Büchi edition checker for Rust callers: safe functions over the archive that `tools/archive` writes.
//!
//! Every answer is the archive's. This crate passes buffers on and takes the numbers apart; it decides nothing itself.
//!
//! | What | Where |
//! |---|---|
//! | is every run prefix of one automaton followed by one of the other within a bound? | [`contain`], [`Buffers::contain`] |
//! | an entry: open it, offer it a smaller edition, ask for a verdict | [`Entry`], [`Buffers::offer`] |
//! | a file's automaton in the fixed form, the same bytes for the same automaton | [`write()`], [`write_into`] |
//! | the automaton of a Hanoi text, as a file in the fixed form | [`from_hanoi`], [`from_hanoi_into`] |
//! | why a call was refused, and what to do about it | [`Refusal`] |
//! | the plain numbers | [`archive`] |
//! | looking at automata and at walks, for display only | [`Automaton`], [`slots`], [`lag`] |
//!
//! ```
//! use edition::{Buffers, Outcome};
//!
//! // H and J of document 01: a loop on the one letter, and the same after one step.
//! let h = b"AH\x01\x01\x00AF\x00AT\x00\x00\x00AE";
//! let j = b"AH\x02\x01\x00AF\x01AT\x00\x00\x01AT\x01\x00\x01AE";
//!
//! let mut buffers = Buffers::largest();
//! assert_eq!(buffers.contain(h, j, 1), Ok(Outcome::Contained { count: 2 }));
//! assert_eq!(buffers.contain(h, j, 0), Ok(Outcome::Differs { count: 0, word: &[] }));
//! ```
//!
//! # Overlap
//!
//! The proofs assume that a buffer that is written overlaps no other argument. From safe Rust it cannot: a `&mut` slice overlaps
//! no other live borrow.
//!
//! # Stack
//!
//! A call takes less than 64 KiB of stack, and where a walk ends with a word at most 128 bytes more for each of its letters, of
//! which there are at most 4,096: at most 576 KiB in all. `tests/stack` of the repository measures it and fails above these limits.
//! The threads of `std::thread` have 2 MiB unless they are told otherwise.
//!
//! # The archive
//!
//! The build script links `libkernel.a` of the folder that the variable `EDITION_ARCHIVE_DIR` names, or of the repository's
//! `target/staticlib`. The archive is for x86-64.

#![deny(missing_docs)]
#![deny(unsafe_op_in_unsafe_fn)]

pub mod archive;
mod automaton;
mod buffers;
mod containment;
mod entry;
mod hanoi;
pub mod lag;
mod layout;
mod refusal;
pub mod slots;
mod written;

pub use automaton::Automaton;
pub use buffers::Buffers;
pub use containment::{contain, Outcome};
pub use entry::{Entry, Held, Offer};
pub use hanoi::{from_hanoi, from_hanoi_into, is_hanoi};
pub use layout::ENTRY_BYTES;
pub use refusal::{Argument, Refusal, Walk};
pub use written::{write, write_into};

/// The version of this package, which is the version of the header and of the command.
pub const VERSION: &str = env!("CARGO_PKG_VERSION");

/// The largest bound; a larger one is refused with 8.
pub const MAX_BOUND: u8 = 14;

/// The most slots that a walk uses.
pub const MAX_SLOTS: usize = 4096;

/// The most letters that a word has: a walk's final vertex is at most as many steps from the initial one as there are slots.
pub const MAX_WORD: usize = MAX_SLOTS;

/// The most bytes of a file that can be read, and of one that is written: an output buffer of this length is never too short.
pub const MAX_FILE: usize = 82_023;

/// `length` bits of a number, from `low` upwards.
fn bits(number: u64, low: u32, length: u32) -> u64 {
    number >> low & ((1 << length) - 1)
}

/// As `bits`, for the fields of 16 bits.
fn half(number: u64, low: u32) -> u16 {
    bits(number, low, 16) as u16
}
