use crate::refusal::Values;
use crate::{archive, bits, half, Argument, Refusal};

/// What a walk found.
#[derive(Clone, Copy, Debug, PartialEq, Eq)]
pub enum Outcome<'a> {
    /// The second automaton follows every run prefix of the first, on the same word, with lag at most the bound.
    Contained {
        /// How many vertices the discovery list has.
        count: u16,
    },
    /// It does not follow some run prefix of the first.
    Differs {
        /// The place of the final vertex in the discovery list, counted from 0.
        count: u16,
        /// A word with such a run prefix: what was written in front in the caller's word buffer.
        word: &'a [u8],
    },
}

/// Decides whether the first file's automaton is contained in the second's at the bound.
///
/// The walk writes its slots into `work`, 40 bytes each, and a differing word into `word`. Other bytes keep their contents.
/// Refusals come in this order: 1 to 5 for the first file, then the second, 8, 7, 6 for the first, then the second, 10, 11.
///
/// ```
/// use edition::{contain, Outcome, Refusal};
///
/// let zero_only = b"AH\x01\x02\x00AF\x00AT\x00\x00\x00AE";
/// let both = b"AH\x01\x02\x00AF\x00AT\x00\x00\x00AT\x00\x01\x00AE";
/// let (mut work, mut word) = ([0; 400], [0; 8]);
///
/// let outcome = contain(both, zero_only, 0, &mut work, &mut word);
/// assert_eq!(outcome, Ok(Outcome::Differs { count: 1, word: &[1] }));
///
/// let refused = contain(both, zero_only, 15, &mut work, &mut word);
/// assert_eq!(refused, Err(Refusal::Bound));
/// ```
///
/// A written buffer cannot overlap another argument:
///
/// ```compile_fail,E0502
/// let mut file = *b"AH\x01\x01\x00AF\x00AT\x00\x00\x00AE";
/// let _ = edition::contain(&file, &file, 0, &mut file, &mut []);
/// ```
pub fn contain<'a>(
    first: &[u8],
    second: &[u8],
    bound: u64,
    work: &mut [u8],
    word: &'a mut [u8],
) -> Result<Outcome<'a>, Refusal> {
    let number = archive::contain(first, second, bound, work, word);
    let (kind, count, length) = (bits(number, 0, 8), half(number, 8), half(number, 24));
    match kind {
        0 => Ok(Outcome::Contained { count }),
        1 => Ok(Outcome::Differs {
            count,
            word: &word[..usize::from(length)],
        }),
        _ => Err(Refusal::of_kind(
            kind,
            Values {
                file: argument(count),
                slots: count,
                needed: length,
                ..Values::default()
            },
        )),
    }
}

/// The file that stands as count of refusals 1 to 6.
fn argument(count: u16) -> Option<Argument> {
    match count {
        1 => Some(Argument::First),
        2 => Some(Argument::Second),
        _ => None,
    }
}
