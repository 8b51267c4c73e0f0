//! Contain: is the first file's automaton contained in the second's at a bound?

use crate::automaton::Automaton;
use crate::dead;
use crate::file;
use crate::refusal::{at, Located, Refusal};
use crate::walk::{check_bound, walk, Outcome};

/// A refusal of contain, with the file (1 or 2) that it is about where it is 1 to 6.
pub type ContainRefusal = Located<u8>;

/// Contain's number: kind + 2^8 count + 2^24 word length.
pub fn contain(first: &[u8], second: &[u8], bound: u64, work: &mut [u8], word: &mut [u8]) -> u64 {
    number(&decide(first, second, bound, work, word))
}

/// Contain's checks in order, then the walk.
pub fn decide(
    first: &[u8],
    second: &[u8],
    bound: u64,
    work: &mut [u8],
    word: &mut [u8],
) -> Result<Outcome, ContainRefusal> {
    let left = file::read(first).map_err(at(1))?;
    let right = file::read(second).map_err(at(2))?;
    let bound = check_bound(bound)?;
    check_letters(&left, &right)?;
    dead::check(&left).map_err(at(1))?;
    dead::check(&right).map_err(at(2))?;
    Ok(walk(&left, &right, bound, work, word)?)
}

/// Refusal 7 if the letter counts differ.
pub fn check_letters(left: &Automaton, right: &Automaton) -> Result<(), Refusal> {
    if left.letters() == right.letters() {
        Ok(())
    } else {
        Err(Refusal::Letters)
    }
}

/// The one number that tells a result of contain.
pub fn number(result: &Result<Outcome, ContainRefusal>) -> u64 {
    let (kind, count, length) = match *result {
        Ok(Outcome::Contained { count }) => (0, count as u64, 0),
        Ok(Outcome::Differs { count, length }) => (1, count as u64, length as u64),
        Err(Located { refusal, place }) => {
            let count = place.map_or(refusal.count(), u64::from);
            (refusal.kind(), count, refusal.word_length())
        }
    };
    kind + (count << 8) + (length << 24)
}
