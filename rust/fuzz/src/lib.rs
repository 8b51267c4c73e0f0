//! Any bytes as a list of calls on the kernel and on the second checker: contain, file_write, hanoi_write, and open, offer and verdict on one entry, whose
//! bytes may be changed between the calls. Every number and every byte of work, word, entry and output is compared.

mod answers;
mod source;
mod texts;

use std::panic::catch_unwind;
use std::process::abort;

use answers::{note, Call};
use differential::entries::{Calls, History, Tallies};
use differential::random::Random;
use differential::tally::Tally;
use differential::writing::{self, FILE_WRITE, HANOI_WRITE};
use differential::{containment, hanoi};
use second::entry::LAST_EDITION;
use second::ENTRY_BYTES;
use source::Source;

/// Most calls of one input.
const MOST_CALLS: usize = 24;

/// The calls made so far and their outcomes.
pub struct Comparison {
    contain: Tally,
    entries: Tallies,
    write: Tally,
    hanoi: Tally,
}

impl Default for Comparison {
    fn default() -> Comparison {
        Comparison {
            contain: Tally::new("contain"),
            entries: Tallies::default(),
            write: Tally::new("file_write"),
            hanoi: Tally::new("hanoi_write"),
        }
    }
}

impl Comparison {
    /// Makes the calls that the bytes stand for. True if the two checkers agreed on all calls so far.
    pub fn agree(&mut self, data: &[u8]) -> bool {
        let source = &mut Source::new(data);
        let mut entry = vec![0; ENTRY_BYTES];
        for _ in 0..MOST_CALLS {
            if source.is_empty() {
                break;
            }
            let tag = source.byte() % 32;
            match tag % 8 {
                0 if tag >= 24 => self.write(source),
                1 | 2 if tag >= 24 => self.hanoi(source),
                0..=2 => self.contain(source),
                7 => forge(source, &mut entry),
                tag => self.entry_call(source, &mut entry, tag),
            }
        }
        let tallies = [&self.contain, &self.write, &self.hanoi];
        tallies.iter().all(|tally| tally.disagreements() == 0) && self.entries.disagreements() == 0
    }

    /// Prints the outcomes. True if every outcome of every call came up and nothing disagreed.
    pub fn conclude(&self) -> bool {
        self.contain.conclude(&containment::OUTCOMES)
            & self.entries.conclude()
            & self.write.conclude(&writing::OUTCOMES)
            & self.hanoi.conclude(&hanoi::OUTCOMES)
    }

    fn contain(&mut self, source: &mut Source) {
        let files = [source.file(), source.file()];
        let terms = source.terms();
        let number = containment::compare(
            &mut Random::new(0, 0),
            &mut self.contain,
            "input",
            [&files[0], &files[1]],
            terms.bound,
            [terms.work, terms.word],
        );
        note(Call::Contain, number);
    }

    fn write(&mut self, source: &mut Source) {
        let file = source.shuffled_file();
        let room = source.room(file.len());
        let random = &mut Random::new(0, 0);
        let answer = writing::compare(&FILE_WRITE, random, &mut self.write, "input", &file, room);
        note(Call::Write, answer.number);
    }

    /// With a buffer about as long as the file that the text comes to.
    fn hanoi(&mut self, source: &mut Source) {
        let text = source.text();
        let needed = second::hanoi_write(&text, &mut []) >> 8;
        let room = source.room(needed as usize);
        let random = &mut Random::new(0, 0);
        let answer = writing::compare(&HANOI_WRITE, random, &mut self.hanoi, "input", &text, room);
        note(Call::Hanoi, answer.number);
    }

    /// Opens, offers or asks.
    fn entry_call(&mut self, source: &mut Source, entry: &mut Vec<u8>, tag: u8) {
        let random = &mut Random::new(0, 0);
        let name = "input".to_string();
        let mut history = History::new(random, &Calls::KERNEL, &mut self.entries, name, entry);
        match tag {
            3 => note(Call::Open, history.open(random, &source.file())),
            6 => {
                let (stem, cycle) = (source.word(), source.word());
                note(Call::Verdict, history.verdict(&stem, &cycle));
            }
            _ => {
                let (file, terms) = (source.file(), source.terms());
                note(Call::Offer, history.offer(random, &file, &terms));
            }
        }
        *entry = history.entry().to_vec();
    }
}

/// Changes one byte of the entry, its edition number to one about the last, or its length.
fn forge(source: &mut Source, entry: &mut Vec<u8>) {
    let (place, value) = (source.number(), source.byte());
    match place {
        0xF000.. if value == 0 => entry.clear(),
        0xF000.. => entry.resize(ENTRY_BYTES - 128 + usize::from(value), value),
        0xE000.. if entry.len() == ENTRY_BYTES => {
            let edition = LAST_EDITION - 4 + u32::from(value % 8);
            entry[5..9].copy_from_slice(&edition.to_le_bytes());
        }
        _ if entry.is_empty() => {}
        _ => {
            let length = entry.len();
            entry[place % length] = value;
        }
    }
}

/// What the fuzzer calls with each input: aborts if the checkers disagree.
///
/// # Safety
/// The pointer goes with the length.
#[no_mangle]
pub unsafe extern "C" fn LLVMFuzzerTestOneInput(data: *const u8, length: usize) -> i32 {
    let data = if length == 0 {
        &[]
    } else {
        // SAFETY: the caller's promise.
        unsafe { std::slice::from_raw_parts(data, length) }
    };
    match catch_unwind(|| Comparison::default().agree(data)) {
        Ok(true) => 0,
        _ => abort(),
    }
}
