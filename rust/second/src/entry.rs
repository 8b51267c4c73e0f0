//! Entry, open, offer: an entry holds an automaton without dead states; a smaller offer replaces it if both are contained in
//! each other.
//!
//! An entry also has a form of 2,061 bytes for callers that keep it themselves: byte 0 is 0 (empty) or 1 (holds an edition);
//! 1 number of states, 2 number of letters, 3 initial state, 4 first states; 5-8 edition number, low byte first; 9-12 accepting
//! set; 13-2060 transitions, byte `(q * 16 + a) * 4 + r / 8`, bit `r % 8`. Bytes that are no entry value are condition 9.

use crate::automaton::{Automaton, MAX_LETTERS, MAX_STATES};
use crate::contain::check_letters;
use crate::dead;
use crate::file;
use crate::lasso;
use crate::refusal::{at, Located, Refusal};
use crate::walk::{check_bound, walk, Outcome};

/// Bytes of an entry's byte form.
pub const ENTRY_BYTES: usize = 13 + MAX_STATES * MAX_LETTERS * 4;

/// Highest edition number: one less than the number of pairs of a state count and a transition count.
pub const LAST_EDITION: u32 = 183_071;

/// An entry: empty, or it holds an edition. Every value is well formed.
#[derive(Clone, Debug, Default, PartialEq, Eq)]
pub struct Entry {
    edition: Option<Edition>,
}

/// What an entry that is not empty holds.
#[derive(Clone, Debug, PartialEq, Eq)]
pub struct Edition {
    automaton: Automaton,
    number: u32,
    first_states: u8,
}

impl Edition {
    /// The held automaton; it has no dead states.
    pub fn automaton(&self) -> &Automaton {
        &self.automaton
    }

    /// The edition number.
    pub fn number(&self) -> u32 {
        self.number
    }

    /// Number of states of the first edition.
    pub fn first_states(&self) -> usize {
        self.first_states.into()
    }
}

/// The outcome of an offer, with the count of every walk made. A word stands at the front of the word buffer.
#[derive(Clone, Copy, Debug, PartialEq, Eq)]
pub enum Offer {
    /// The offer is held as the next edition.
    Taken {
        /// Count of the forward walk.
        forward: usize,
        /// Count of the back walk.
        back: usize,
    },
    /// The held automaton is not contained in the offer.
    Forward {
        /// Count of the forward walk.
        forward: usize,
        /// Length of the word.
        length: usize,
    },
    /// The offer is not contained in the held automaton.
    Back {
        /// Count of the forward walk.
        forward: usize,
        /// Count of the back walk.
        back: usize,
        /// Length of the word.
        length: usize,
    },
}

/// One of the two walks of an offer.
#[derive(Clone, Copy, Debug, PartialEq, Eq)]
pub enum Direction {
    /// Held automaton left, offer right.
    Forward,
    /// Offer left, held automaton right.
    Back,
}

/// A refusal of an offer, with the walk that it is about where it is 10 or 11.
pub type OfferRefusal = Located<Direction>;

/// Has the offer fewer states than the held automaton, or as many and fewer transitions?
fn smaller(offer: &Automaton, held: &Automaton) -> bool {
    (offer.states(), offer.transition_count()) < (held.states(), held.transition_count())
}

impl Entry {
    /// A fresh entry, which is empty.
    pub fn fresh() -> Entry {
        Entry::default()
    }

    /// The edition that the entry holds, if it is not empty.
    pub fn edition(&self) -> Option<&Edition> {
        self.edition.as_ref()
    }

    /// Opens an empty entry: the file's automaton is edition 0. The refusals are 12, 1-5 and 6.
    pub fn open(&mut self, file: &[u8]) -> Result<(), Refusal> {
        if self.edition.is_some() {
            return Err(Refusal::AlreadyOpen);
        }
        let automaton = file::read(file)?;
        dead::check(&automaton)?;
        self.edition = Some(Edition {
            first_states: automaton.states() as u8,
            number: 0,
            automaton,
        });
        Ok(())
    }

    /// Offers the file's automaton as the next edition. The refusals are 13, 1-5, 8, 7, 6, 14, then 10 and 11 of each walk.
    pub fn offer(&mut self, file: &[u8], bound: u64, work: &mut [u8], word: &mut [u8]) -> Result<Offer, OfferRefusal> {
        let edition = self.edition.as_mut().ok_or(Refusal::Empty)?;
        let held = &edition.automaton;
        let offer = file::read(file)?;
        let bound = check_bound(bound)?;
        check_letters(held, &offer)?;
        dead::check(&offer)?;
        if !smaller(&offer, held) || edition.number == LAST_EDITION {
            return Err(Refusal::NotSmaller.into());
        }
        let forward = match walk(held, &offer, bound, work, word).map_err(at(Direction::Forward))? {
            Outcome::Contained { count } => count,
            Outcome::Differs { count, length } => return Ok(Offer::Forward { forward: count, length }),
        };
        let back = match walk(&offer, held, bound, work, word).map_err(at(Direction::Back))? {
            Outcome::Contained { count } => count,
            Outcome::Differs { count, length } => {
                return Ok(Offer::Back {
                    forward,
                    back: count,
                    length,
                })
            }
        };
        edition.automaton = offer;
        edition.number += 1;
        Ok(Offer::Taken { forward, back })
    }

    /// The held automaton's verdict on a lasso word. The refusals are 13 and 15.
    pub fn verdict(&self, stem: &[u8], cycle: &[u8]) -> Result<bool, Refusal> {
        let edition = self.edition.as_ref().ok_or(Refusal::Empty)?;
        lasso::verdict(&edition.automaton, stem, cycle)
    }

    /// The entry that the bytes stand for; refusal 9 if they are no entry value.
    pub fn from_bytes(bytes: &[u8]) -> Result<Entry, Refusal> {
        let bytes: &[u8; ENTRY_BYTES] = bytes.try_into().map_err(|_| Refusal::Malformed)?;
        let edition = match bytes[0] {
            0 => None,
            1 => Some(Edition::from_bytes(bytes).ok_or(Refusal::Malformed)?),
            _ => return Err(Refusal::Malformed),
        };
        Ok(Entry { edition })
    }

    /// The entry's bytes; all zeros if it is empty.
    pub fn to_bytes(&self) -> [u8; ENTRY_BYTES] {
        let mut bytes = [0; ENTRY_BYTES];
        if let Some(edition) = &self.edition {
            edition.write_bytes(&mut bytes);
        }
        bytes
    }
}

/// First byte of the transitions.
const TRANSITIONS: usize = 13;

/// Bytes of the transitions from one state.
const STATE_BYTES: usize = MAX_LETTERS * 4;

/// The four bytes at an offset as a number, low byte first.
fn number_at(bytes: &[u8; ENTRY_BYTES], offset: usize) -> u32 {
    u32::from_le_bytes(std::array::from_fn(|i| bytes[offset + i]))
}

impl Edition {
    /// The edition that the bytes stand for, if they are well formed.
    fn from_bytes(bytes: &[u8; ENTRY_BYTES]) -> Option<Edition> {
        let [_, states, letters, initial, first_states, ..] = *bytes;
        let number = number_at(bytes, 5);
        let mut automaton = Automaton::new(states, letters, initial)?;
        let first_in_range = (states..=MAX_STATES as u8).contains(&first_states);
        if !first_in_range || number > LAST_EDITION {
            return None;
        }
        let outside = !automaton.all_states();
        let accepting = number_at(bytes, 9);
        if accepting & outside != 0 {
            return None;
        }
        automaton.set_accepting(accepting);
        for (from, rows) in bytes[TRANSITIONS..].chunks_exact(STATE_BYTES).enumerate() {
            for (letter, row) in rows.chunks_exact(4).enumerate() {
                let targets = u32::from_le_bytes(row.try_into().expect("four bytes"));
                if targets == 0 {
                    continue;
                }
                let (from, letter) = (from as u8, letter as u8);
                let used_outside = targets & outside != 0;
                if used_outside || !automaton.has_state(from) || !automaton.has_letter(letter) {
                    return None;
                }
                automaton.set_targets(from, letter, targets);
            }
        }
        dead::check(&automaton).ok()?;
        Some(Edition {
            automaton,
            number,
            first_states,
        })
    }

    /// Writes every byte.
    fn write_bytes(&self, bytes: &mut [u8; ENTRY_BYTES]) {
        let automaton = &self.automaton;
        bytes[0] = 1;
        bytes[1] = automaton.states() as u8;
        bytes[2] = automaton.letters() as u8;
        bytes[3] = automaton.initial() as u8;
        bytes[4] = self.first_states;
        bytes[5..9].copy_from_slice(&self.number.to_le_bytes());
        bytes[9..13].copy_from_slice(&automaton.accepting().to_le_bytes());
        let states = bytes[TRANSITIONS..].chunks_exact_mut(STATE_BYTES);
        for (from, rows) in states.enumerate() {
            for (letter, row) in rows.chunks_exact_mut(4).enumerate() {
                row.copy_from_slice(&automaton.transitions(letter)[from].to_le_bytes());
            }
        }
    }
}

/// Opens an entry in its byte form: 0 opened, 100 plus a refusal's number. A refusal changes no byte.
pub fn entry_open(entry: &mut [u8], file: &[u8]) -> u64 {
    let result = Entry::from_bytes(entry).and_then(|mut value| {
        value.open(file)?;
        Ok(value)
    });
    match result {
        Ok(value) => {
            entry.copy_from_slice(&value.to_bytes());
            0
        }
        Err(refusal) => refusal.kind(),
    }
}

/// Offers to an entry in its byte form, with the number of [`offer_number`]. Only an offer that is taken changes the entry.
pub fn entry_offer(entry: &mut [u8], file: &[u8], bound: u64, work: &mut [u8], word: &mut [u8]) -> u64 {
    let mut value = match Entry::from_bytes(entry) {
        Ok(value) => value,
        Err(refusal) => return refusal.kind(),
    };
    let result = value.offer(file, bound, work, word);
    if let Ok(Offer::Taken { .. }) = result {
        entry.copy_from_slice(&value.to_bytes());
    }
    offer_number(&result)
}

/// The one number that tells a result of offer: kind + 2^8 forward count + 2^24 back count + 2^40 word length + 2^56 walk. Kind
/// is 0 taken, 1 forward, 2 back, 100 plus a refusal's number. Walk is 1 (forward) or 2 (back) with refusals 10 and 11. With 10
/// the slots are the count of that walk, with 11 the length is what the word needs; parts that a result lacks are 0.
pub fn offer_number(result: &Result<Offer, OfferRefusal>) -> u64 {
    let (kind, forward, back, length, walk) = match *result {
        Ok(Offer::Taken { forward, back }) => (0, forward as u64, back as u64, 0, 0),
        Ok(Offer::Forward { forward, length }) => (1, forward as u64, 0, length as u64, 0),
        Ok(Offer::Back { forward, back, length }) => (2, forward as u64, back as u64, length as u64, 0),
        Err(Located { refusal, place }) => {
            let (kind, count, needed) = (refusal.kind(), refusal.count(), refusal.word_length());
            match place {
                None => (kind, 0, 0, 0, 0),
                Some(Direction::Forward) => (kind, count, 0, needed, 1),
                Some(Direction::Back) => (kind, 0, count, needed, 2),
            }
        }
    };
    kind + (forward << 8) + (back << 24) + (length << 40) + (walk << 56)
}

/// The verdict of an entry in its byte form: 0 no, 1 yes, 100 plus a refusal's number.
pub fn entry_verdict(entry: &[u8], stem: &[u8], cycle: &[u8]) -> u64 {
    match Entry::from_bytes(entry).and_then(|value| value.verdict(stem, cycle)) {
        Ok(accepted) => accepted.into(),
        Err(refusal) => refusal.kind(),
    }
}
