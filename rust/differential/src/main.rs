//! Compares the proved kernel, linked from its archive, with the second checker: the number of every call and every byte of
//! every buffer. With `listing` it compares what the proved program prints, run in a folder that nothing else uses. All cases are
//! drawn from the seeds below, so each run makes the same calls. The exit status is not 0 if the two disagree, or if some outcome
//! never came up.

use std::path::Path;
use std::process::ExitCode;
use std::time::Instant;

use differential::tally::Tally;
use differential::{containment, entries, hanoi, listing, writing};

/// Pairs of drawn files for contain.
const PAIRS: usize = 800_000;

/// Pairs with long walks for contain.
const LONG_WALKS: usize = 4_000;

/// Lists of open and offer calls.
const LISTS: usize = 20_000;

/// Forged entries.
const FORGED: usize = 20_000;

/// Verdicts on words up to the limits.
const LONG_WORDS: usize = 1_000;

/// Drawn automata whose files are written.
const WRITTEN: usize = 40_000;

/// Spoilt files that are to be written.
const DAMAGED: usize = 100_000;

/// Drawn Hanoi texts.
const TEXTS: usize = 15_000;

/// Drawn Hanoi texts that get faults of which the first is known, each in four ways.
const FAULTY: usize = 30_000;

/// Drawn Hanoi texts that are spoilt, each in four ways.
const SPOILT: usize = 30_000;

/// Pairs of drawn files for the listing.
const LISTED: usize = 2_500;

const PAIRS_SEED: u64 = 0x5EED_0001;
const LONG_WALKS_SEED: u64 = 0x5EED_0002;
const WORKED_SEED: u64 = 0x5EED_0003;
const LISTS_SEED: u64 = 0x5EED_0004;
const FORGED_SEED: u64 = 0x5EED_0005;
const LONG_WORDS_SEED: u64 = 0x5EED_0006;
const LONGEST_SEED: u64 = 0x5EED_0007;
const EXAMPLES_SEED: u64 = 0x5EED_0008;
const LISTED_SEED: u64 = 0x5EED_0009;
const WRITTEN_SEED: u64 = 0x5EED_000A;
const DAMAGED_SEED: u64 = 0x5EED_000B;
const TEXTS_SEED: u64 = 0x5EED_000C;
const FAULTY_SEED: u64 = 0x5EED_000D;
const SPOILT_SEED: u64 = 0x5EED_000E;

fn main() -> ExitCode {
    let arguments: Vec<String> = std::env::args().skip(1).collect();
    let passed = match arguments.as_slice() {
        [] => {
            let contain_passed = compare_contain();
            let entries_passed = compare_entries();
            contain_passed & entries_passed & compare_writing() & compare_hanoi()
        }
        [word] if word == "rehearse" => rehearse_entries(),
        [word, program, folder] if word == "listing" => compare_listing(program, folder),
        _ => {
            println!("usage: differential [rehearse | listing PROGRAM FOLDER]");
            false
        }
    };
    println!("differential: {}", if passed { "passed" } else { "FAILED" });
    if passed {
        ExitCode::SUCCESS
    } else {
        ExitCode::FAILURE
    }
}

fn compare_contain() -> bool {
    let mut tally = Tally::new("contain");
    timed(
        &format!("contain: {PAIRS} pairs of files, seed {PAIRS_SEED:#x}"),
        || containment::drawn_pairs(&mut tally, PAIRS_SEED, PAIRS),
    );
    timed(
        &format!("contain: {LONG_WALKS} long walks, seed {LONG_WALKS_SEED:#x}"),
        || containment::long_walks(&mut tally, LONG_WALKS_SEED, LONG_WALKS),
    );
    timed(&format!("contain: worked files spoilt, seed {WORKED_SEED:#x}"), || {
        containment::worked_files(&mut tally, WORKED_SEED)
    });
    timed(
        &format!("contain: the longest walks and words, seed {LONGEST_SEED:#x}"),
        || containment::longest(&mut tally, LONGEST_SEED),
    );
    tally.conclude(&containment::OUTCOMES)
}

fn compare_entries() -> bool {
    println!("entries: the kernel against the second checker");
    check_entries(&entries::Calls::KERNEL)
}

/// The second checker against itself: shows only that the calls drawn come to every outcome.
fn rehearse_entries() -> bool {
    println!("entries: a rehearsal, the second checker against itself");
    check_entries(&entries::Calls::SECOND)
}

fn check_entries(calls: &entries::Calls) -> bool {
    let mut tallies = entries::Tallies::default();
    timed(&format!("entries: {LISTS} lists, seed {LISTS_SEED:#x}"), || {
        entries::lists(calls, &mut tallies, LISTS_SEED, LISTS)
    });
    let share_passed = tallies.conclude_share();
    timed(&format!("entries: {FORGED} forged, seed {FORGED_SEED:#x}"), || {
        entries::forged(calls, &mut tallies, FORGED_SEED, FORGED)
    });
    timed(
        &format!("entries: {LONG_WORDS} long words, seed {LONG_WORDS_SEED:#x}"),
        || entries::long_words(calls, &mut tallies, LONG_WORDS_SEED, LONG_WORDS),
    );
    timed(&format!("entries: the longest words, seed {LONGEST_SEED:#x}"), || {
        entries::longest(calls, &mut tallies, LONGEST_SEED)
    });
    tallies.conclude() & share_passed
}

fn compare_writing() -> bool {
    let mut tally = Tally::new("file_write");
    timed(
        &format!("file_write: {WRITTEN} automata, seed {WRITTEN_SEED:#x}"),
        || writing::drawn_files(&mut tally, WRITTEN_SEED, WRITTEN),
    );
    timed(
        &format!("file_write: {DAMAGED} spoilt files, seed {DAMAGED_SEED:#x}"),
        || writing::damaged_files(&mut tally, DAMAGED_SEED, DAMAGED),
    );
    timed(
        &format!("file_write: worked files spoilt, seed {WORKED_SEED:#x}"),
        || writing::worked_files(&mut tally, WORKED_SEED),
    );
    timed(
        &format!("file_write: no records and all of them, seed {LONGEST_SEED:#x}"),
        || writing::limits(&mut tally, LONGEST_SEED),
    );
    tally.conclude(&writing::OUTCOMES)
}

fn compare_hanoi() -> bool {
    let mut tally = Tally::new("hanoi_write");
    timed(&format!("hanoi_write: {TEXTS} texts, seed {TEXTS_SEED:#x}"), || {
        hanoi::drawn_texts(&mut tally, TEXTS_SEED, TEXTS)
    });
    timed(
        &format!("hanoi_write: {FAULTY} texts with known faults, four ways each, seed {FAULTY_SEED:#x}"),
        || hanoi::faulty_texts(&mut tally, FAULTY_SEED, FAULTY),
    );
    timed(
        &format!("hanoi_write: {SPOILT} texts spoilt, four ways each, seed {SPOILT_SEED:#x}"),
        || hanoi::spoilt_texts(&mut tally, SPOILT_SEED, SPOILT),
    );
    timed(
        &format!("hanoi_write: texts of F and G spoilt, seed {WORKED_SEED:#x}"),
        || hanoi::worked_texts(&mut tally, WORKED_SEED),
    );
    timed(
        &format!("hanoi_write: the longest labels, numbers and texts, seed {LONGEST_SEED:#x}"),
        || {
            hanoi::nested_labels(&mut tally, LONGEST_SEED);
            hanoi::long_labels(&mut tally, LONGEST_SEED);
            hanoi::long_numbers(&mut tally, LONGEST_SEED);
            hanoi::long_texts(&mut tally, LONGEST_SEED);
        },
    );
    tally.conclude(&hanoi::OUTCOMES)
}

fn compare_listing(program: &str, folder: &str) -> bool {
    let examples = Path::new(env!("CARGO_MANIFEST_DIR")).join("../../examples");
    let mut lines = listing::Lines::new(program, folder);
    timed(
        &format!("listing: worked automata and examples, seed {EXAMPLES_SEED:#x}"),
        || listing::named_files(&mut lines, EXAMPLES_SEED, &examples),
    );
    timed(&format!("listing: {LISTED} pairs, seed {LISTED_SEED:#x}"), || {
        listing::drawn_pairs(&mut lines, LISTED_SEED, LISTED)
    });
    timed("listing: files cut short", || listing::truncations(&mut lines));
    timed("listing: lengths of files and inputs", || listing::lengths(&mut lines));
    timed("listing: long walks and words", || listing::long_walks(&mut lines));
    lines.conclude()
}

/// Prints what is done, then the seconds that it took.
fn timed(what: &str, work: impl FnOnce()) {
    let start = Instant::now();
    work();
    println!("{what}: {:.1} s", start.elapsed().as_secs_f64());
}
