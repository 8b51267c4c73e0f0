//! A second Büchi edition checker, written from documents 01 and 02 alone.
//!
//! The proved checker is compared with this one. So nothing here is taken from the proved code or from its definitions: the two
//! agree where both agree with the documents. It is plain safe Rust without dependencies, written for speed: state sets are bits
//! of a `u32`, the listed vertices of a walk are found by a hash table, a vertex's counters are the digits of one `u128`.
//!
//! One module for each chapter of document 01, and one for each request of document 02 that adds a call:
//!
//! | Module | Chapter |
//! |---|---|
//! | [`automaton`] | automata and sets of states |
//! | [`refusal`] | the table of refusals |
//! | [`file`] | The file |
//! | [`dead`] | Dead ends |
//! | [`walk`] | The walk |
//! | [`contain`] | Contain |
//! | [`lasso`] | Verdict |
//! | [`entry`] | Entry, open, offer |
//! | [`listing`] | Listing |
//! | [`write`] | S-1, the fixed form of a file |
//! | [`hanoi`] | S-2, Hanoi files |
//!
//! Callers that hold plain bytes and numbers use the functions below. All but `listing` give one number, as document 01 says for
//! `contain` and the vendors' boundary for the others.

#![forbid(unsafe_code)]
#![warn(missing_docs)]

pub mod automaton;
pub mod contain;
pub mod dead;
pub mod entry;
pub mod file;
pub mod hanoi;
pub mod lasso;
pub mod listing;
pub mod refusal;
pub mod walk;
pub mod write;

pub use contain::contain;
pub use entry::{entry_offer, entry_open, entry_verdict, Entry, ENTRY_BYTES};
pub use hanoi::hanoi_write;
pub use listing::listing;
pub use write::file_write;
