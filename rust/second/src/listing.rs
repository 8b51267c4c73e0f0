//! Listing: the line that the listing program prints.

use crate::entry::{Edition, Entry, Offer};
use crate::refusal::Refusal;

/// Longest file that the program takes, in bytes.
pub const MAX_FILE: usize = 65_536;

/// Work bytes of the program's offer.
pub const WORK_BYTES: usize = 65_520;

/// Word bytes of the program's offer.
pub const WORD_BYTES: usize = 2_048;

/// What the program prints, line end included, for the bytes of its standard input, of `first.ba` and of `offer.ba`. A missing
/// file counts as empty.
pub fn listing(input: &[u8], first: &[u8], offer: &[u8]) -> Vec<u8> {
    let mut line = match *input {
        [_] if first.len() > MAX_FILE || offer.len() > MAX_FILE => "long".to_string(),
        [bound] => match replace(first, offer, bound.into()) {
            Ok(line) => line,
            Err(refusal) => format!("refused {}", refusal.number()),
        },
        _ => "usage".to_string(),
    };
    line.push('\n');
    line.into_bytes()
}

/// Opens the first file, offers the second and says what came of it.
fn replace(first: &[u8], offer: &[u8], bound: u64) -> Result<String, Refusal> {
    let mut work = vec![0; WORK_BYTES];
    let mut word = vec![0; WORD_BYTES];
    let mut entry = Entry::fresh();
    entry.open(first)?;
    let outcome = entry
        .offer(offer, bound, &mut work, &mut word)
        .map_err(|refused| refused.refusal)?;
    let edition = entry.edition().expect("the entry is open");
    Ok(match outcome {
        Offer::Taken { forward, back } => line("taken", edition, forward, Some(back), None),
        Offer::Forward { forward, length } => line("forward", edition, forward, None, Some(&word[..length])),
        Offer::Back { forward, back, length } => line("back", edition, forward, Some(back), Some(&word[..length])),
    })
}

/// The line of an outcome, without its end.
fn line(outcome: &str, edition: &Edition, forward: usize, back: Option<usize>, word: Option<&[u8]>) -> String {
    let number = edition.number();
    let held = edition.automaton().states();
    let first = edition.first_states();
    let saved = percent(first - held, first);
    let back = back.map_or("-".to_string(), |count| count.to_string());
    let mut line = format!("{outcome} {number} states {held} of {first} saved {saved} walks {forward} {back}");
    if let Some(word) = word {
        line.push_str(" word");
        for letter in word {
            line.push_str(&format!(" {letter}"));
        }
    }
    line
}

/// The part as a percentage of the whole, which is not 0; halves go up.
pub fn percent(part: usize, whole: usize) -> usize {
    (200 * part + whole) / (2 * whole)
}
