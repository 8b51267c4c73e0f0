use std::fmt;

use crate::layout::{self, ENTRY_BYTES};
use crate::refusal::Values;
use crate::{archive, bits, half, Automaton, Refusal, Walk};

/// An entry of the library: empty, or an automaton with the number of its edition and how many states the first edition had.
///
/// Its bytes are private and change only by [`open`](Entry::open) and [`offer`](Entry::offer), so an entry that began with
/// [`Entry::fresh`] is one that the proofs speak of: each edition that it has held gives every lasso word the verdict of the
/// first. Bytes from elsewhere enter by [`Entry::from_bytes`], which refuses malformed ones. It cannot tell well-formed bytes that
/// open and offer wrote from well-formed bytes that somebody made up. The tables of refusals and the condition for taking an offer
/// hold of those too, and nothing more.
///
/// ```
/// use edition::{Buffers, Entry, Offer, Refusal};
///
/// let h = b"AH\x01\x01\x00AF\x00AT\x00\x00\x00AE";
/// let j = b"AH\x02\x01\x00AF\x01AT\x00\x00\x01AT\x01\x00\x01AE";
/// let mut buffers = Buffers::largest();
///
/// let mut entry = Entry::fresh();
/// entry.open(j)?;
/// assert_eq!(entry.open(j), Err(Refusal::AlreadyOpen));
/// assert_eq!(buffers.offer(&mut entry, h, 1), Ok(Offer::Taken { forward: 2, back: 2 }));
/// assert_eq!(entry.verdict(&[], &[0]), Ok(true));
///
/// let held = entry.held().expect("it was opened");
/// assert_eq!((held.edition, held.automaton.states(), held.first_states), (1, 1, 2));
///
/// let stored = entry.to_bytes();
/// assert_eq!(Entry::from_bytes(&stored)?, entry);
/// # Ok::<(), Refusal>(())
/// ```
#[derive(Clone, PartialEq, Eq)]
pub struct Entry([u8; ENTRY_BYTES]);

/// What an offer came to. With `Forward` and `Back` the entry is unchanged.
#[derive(Clone, Copy, Debug, PartialEq, Eq)]
pub enum Offer<'a> {
    /// The entry holds the offer, and its edition number is one higher.
    Taken {
        /// The forward walk's count.
        forward: u16,
        /// The back walk's count.
        back: u16,
    },
    /// The held automaton is not contained in the offer.
    Forward {
        /// The forward walk's count.
        forward: u16,
        /// A word that shows it.
        word: &'a [u8],
    },
    /// The offer is not contained in the held automaton.
    Back {
        /// The forward walk's count.
        forward: u16,
        /// The back walk's count.
        back: u16,
        /// A word that shows it.
        word: &'a [u8],
    },
}

/// What an open entry holds.
#[derive(Clone, Debug, PartialEq, Eq)]
pub struct Held {
    /// The edition number: how many offers were taken.
    pub edition: u32,
    /// The number of states of the first edition.
    pub first_states: u8,
    /// The automaton.
    pub automaton: Automaton,
}

impl Entry {
    /// An empty entry.
    pub fn fresh() -> Entry {
        Entry([0; ENTRY_BYTES])
    }

    /// The entry of these bytes. Malformed ones are refused with 9.
    ///
    /// The archive judges them: a verdict on an empty loop is refused with 9 if they are malformed, and otherwise with 13 or 15.
    pub fn from_bytes(bytes: &[u8]) -> Result<Entry, Refusal> {
        match (verdict(bytes, &[], &[]), bytes.try_into()) {
            (Err(Refusal::Empty | Refusal::Lasso), Ok(array)) => Ok(Entry(array)),
            _ => Err(Refusal::Malformed),
        }
    }

    /// Whether the bytes begin as an entry's do, or have the length of one and begin neither as an automaton file nor as a Hanoi text:
    /// what a program that takes all three kinds of file goes by. Whether they are an entry is judged by [`from_bytes`](Entry::from_bytes).
    ///
    /// ```
    /// use edition::Entry;
    ///
    /// assert!(Entry::is_meant(&Entry::fresh().to_bytes()));
    /// assert!(!Entry::is_meant(b"AH\x01\x01\x00AF\x00AT\x00\x00\x00AE"));
    /// ```
    pub fn is_meant(bytes: &[u8]) -> bool {
        layout::is_entry_meant(bytes)
    }

    /// The entry's bytes, in the layout of docs/reference.md, "The boundary for vendors".
    pub fn to_bytes(&self) -> [u8; ENTRY_BYTES] {
        self.0
    }

    /// Makes the file's automaton the entry's first edition, with number 0. Refusals: 12, 1 to 5, 6.
    pub fn open(&mut self, file: &[u8]) -> Result<(), Refusal> {
        match archive::entry_open(&mut self.0, file) {
            0 => Ok(()),
            kind => Err(Refusal::of_kind(kind, Values::default())),
        }
    }

    /// Offers the file's automaton as a smaller edition. Refusals: 13, 1 to 5, 8, 7, 6, 14, then 10 and 11 of either walk.
    ///
    /// Both walks write their slots from the start of `work`, and a differing word stands at the front of `word`.
    pub fn offer<'a>(
        &mut self,
        file: &[u8],
        bound: u64,
        work: &mut [u8],
        word: &'a mut [u8],
    ) -> Result<Offer<'a>, Refusal> {
        let number = archive::entry_offer(&mut self.0, file, bound, work, word);
        let (kind, forward, back, length) = (bits(number, 0, 8), half(number, 8), half(number, 24), half(number, 40));
        match kind {
            0 => Ok(Offer::Taken { forward, back }),
            1 => Ok(Offer::Forward {
                forward,
                word: &word[..usize::from(length)],
            }),
            2 => Ok(Offer::Back {
                forward,
                back,
                word: &word[..usize::from(length)],
            }),
            _ => Err(offer_refusal(number)),
        }
    }

    /// Whether the held automaton accepts the lasso word of the stem and the loop `cycle`, which repeats without end. Refusals: 13, 15.
    pub fn verdict(&self, stem: &[u8], cycle: &[u8]) -> Result<bool, Refusal> {
        verdict(&self.0, stem, cycle)
    }

    /// What the entry holds; `None` if it is empty.
    pub fn held(&self) -> Option<Held> {
        layout::entry_is_open(&self.0).then(|| Held {
            edition: layout::entry_edition(&self.0),
            first_states: layout::entry_first_states(&self.0),
            automaton: Automaton::of_entry(&self.0),
        })
    }
}

fn verdict(entry: &[u8], stem: &[u8], cycle: &[u8]) -> Result<bool, Refusal> {
    match archive::entry_verdict(entry, stem, cycle) {
        0 => Ok(false),
        1 => Ok(true),
        kind => Err(Refusal::of_kind(kind, Values::default())),
    }
}

/// The refusal of an offer's number. With 10 the slots stand as the count of the walk that ran out of them.
fn offer_refusal(number: u64) -> Refusal {
    let (walk, slots) = match bits(number, 56, 8) {
        1 => (Some(Walk::Forward), half(number, 8)),
        2 => (Some(Walk::Back), half(number, 24)),
        _ => (None, 0),
    };
    Refusal::of_kind(
        bits(number, 0, 8),
        Values {
            walk,
            slots,
            needed: half(number, 40),
            ..Values::default()
        },
    )
}

impl Default for Entry {
    fn default() -> Entry {
        Entry::fresh()
    }
}

impl fmt::Debug for Entry {
    fn fmt(&self, f: &mut fmt::Formatter<'_>) -> fmt::Result {
        f.debug_tuple("Entry").field(&self.held()).finish()
    }
}
