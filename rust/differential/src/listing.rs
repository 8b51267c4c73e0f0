//! The listing's line: the proved program, run in a folder of its own, against the second checker.

use std::collections::BTreeMap;
use std::fs;
use std::io::{ErrorKind, Write};
use std::path::{Path, PathBuf};
use std::process::{Command, Output, Stdio};

use second::entry::Direction;
use second::listing::{MAX_FILE, WORD_BYTES, WORK_BYTES};
use second::walk::{MAX_SLOTS, SLOT_BYTES};
use second::Entry;

use crate::automata::{
    damaged, draw_letters, draw_states, everything, left_rings, right_rings, window, worked, Plain, Start,
};
use crate::random::Random;
use crate::tally::hex;

/// Every outcome that can be printed. Of the refusals, 9, 12 and 13 cannot come up, since the entry is fresh and the offer
/// follows an open; 11 neither, since a word is at most as long as there are slots and the word buffer is longer; and 15
/// and 16 are no refusals of these calls.
const OUTCOMES: [&str; 24] = [
    "usage",
    "long",
    "refused 1 by open",
    "refused 2 by open",
    "refused 3 by open",
    "refused 4 by open",
    "refused 5 by open",
    "refused 6 by open",
    "refused 1 by offer",
    "refused 2 by offer",
    "refused 3 by offer",
    "refused 4 by offer",
    "refused 5 by offer",
    "refused 6 by offer",
    "refused 7 by offer",
    "refused 8 by offer",
    "refused 14 by offer",
    "refused 10 by the forward walk",
    "refused 10 by the back walk",
    "forward with an empty word",
    "forward",
    "back with an empty word",
    "back",
    "taken",
];

/// Most disagreements that are printed.
const PRINTED: usize = 5;

/// Most bytes of a file or a line that are printed with a disagreement.
const SHOWN: usize = 300;

/// Bounds that are tried with every pair of worked automata.
const BOUNDS: [u8; 18] = [0, 1, 2, 3, 4, 5, 6, 7, 8, 9, 10, 11, 12, 13, 14, 15, 16, 255];

/// The program and its folder, and what its lines came to.
pub struct Lines {
    program: PathBuf,
    folder: PathBuf,
    outcomes: BTreeMap<String, usize>,
    longest: usize,
    disagreements: usize,
}

impl Lines {
    /// Lines of this program, which runs in this folder.
    pub fn new(program: &str, folder: &str) -> Lines {
        Lines {
            program: fs::canonicalize(program).expect("the program is there"),
            folder: PathBuf::from(folder),
            outcomes: BTreeMap::new(),
            longest: 0,
            disagreements: 0,
        }
    }

    /// Writes a file of the folder, or removes it.
    fn put(&self, name: &str, contents: Option<&[u8]>) {
        let path = self.folder.join(name);
        match contents {
            Some(bytes) => fs::write(path, bytes).expect("the folder takes a file"),
            None => match fs::remove_file(path) {
                Err(error) if error.kind() != ErrorKind::NotFound => panic!("{name} stays: {error}"),
                _ => {}
            },
        }
    }

    fn run(&self, input: &[u8]) -> Output {
        let mut child = Command::new(&self.program)
            .current_dir(&self.folder)
            .stdin(Stdio::piped())
            .stdout(Stdio::piped())
            .stderr(Stdio::piped())
            .spawn()
            .expect("the program runs");
        let mut pipe = child.stdin.take().expect("the input is a pipe");
        // A program that ends before it has read the input shows by what it prints.
        let _ = pipe.write_all(input);
        drop(pipe);
        child.wait_with_output().expect("the program ends")
    }

    /// Runs the program on the input and on the two files, of which `None` is missing, and compares what it prints.
    fn compare(&mut self, name: &str, input: &[u8], files: [Option<&[u8]>; 2]) {
        self.put("first.ba", files[0]);
        self.put("offer.ba", files[1]);
        let found = self.run(input);
        let [first, offer] = files.map(|file| file.unwrap_or_default());
        let expected = second::listing(input, first, offer);
        let outcome = outcome(&expected, input, first, offer);
        *self.outcomes.entry(outcome).or_default() += 1;
        self.longest = self.longest.max(expected.len());
        if found.stdout == expected && found.stderr.is_empty() && found.status.success() {
            return;
        }
        self.disagreements += 1;
        if self.disagreements <= PRINTED {
            println!("listing: DISAGREEMENT: {name}, input {}", hex(input));
            println!("  program, {}: {}", found.status, shown(&found.stdout));
            println!("  second: {}", shown(&expected));
            for (name, file) in ["first", "offer"].iter().zip([first, offer]) {
                println!("  {name} ({} bytes): {}", file.len(), hex(front(file)));
            }
        }
    }

    /// Compares the lines of one automaton that is offered to another.
    fn compare_offer(&mut self, name: &str, bound: u8, held: &Plain, offer: &Plain) {
        self.compare(name, &[bound], [Some(&held.file()), Some(&offer.file())]);
    }

    /// Prints the counts. True if nothing disagreed and every outcome came up, and no other one.
    pub fn conclude(&self) -> bool {
        let (lines, longest) = (self.outcomes.values().sum::<usize>(), self.longest);
        println!(
            "listing: {lines} lines, {} disagreements, the longest line has {longest} bytes",
            self.disagreements
        );
        let mut complete = true;
        for outcome in OUTCOMES {
            let count = self.outcomes.get(outcome).copied().unwrap_or(0);
            println!("  {outcome}: {count}{}", if count == 0 { ": FAILED" } else { "" });
            complete &= count > 0;
        }
        let known = |outcome: &&String| OUTCOMES.contains(&outcome.as_str());
        for outcome in self.outcomes.keys().filter(|outcome| !known(outcome)) {
            println!("  {outcome} is no outcome of the listing: FAILED");
            complete = false;
        }
        complete && self.disagreements == 0
    }
}

/// The first bytes.
fn front(bytes: &[u8]) -> &[u8] {
    &bytes[..bytes.len().min(SHOWN)]
}

/// The first bytes as text, with marks in place of line ends.
fn shown(line: &[u8]) -> String {
    String::from_utf8_lossy(front(line)).escape_debug().to_string()
}

/// The outcome that a line prints; a refusal with the call or the walk that gave it, which the line does not say.
fn outcome(line: &[u8], input: &[u8], first: &[u8], offer: &[u8]) -> String {
    let line = String::from_utf8_lossy(line);
    let words: Vec<&str> = line.split_whitespace().collect();
    match (words.as_slice(), input) {
        (["refused", _], [bound]) => format!("{} by {}", words.join(" "), refused_by(first, offer, *bound)),
        ([outcome, .., "word"], _) => format!("{outcome} with an empty word"),
        _ => words.first().copied().unwrap_or_default().to_string(),
    }
}

/// The call or the walk that refuses the files.
fn refused_by(first: &[u8], offer: &[u8], bound: u8) -> &'static str {
    let mut entry = Entry::fresh();
    if entry.open(first).is_err() {
        return "open";
    }
    match entry.offer(offer, bound.into(), &mut [0; WORK_BYTES], &mut [0; WORD_BYTES]) {
        Err(refused) => match refused.place {
            None => "offer",
            Some(Direction::Forward) => "the forward walk",
            Some(Direction::Back) => "the back walk",
        },
        Ok(_) => "neither call",
    }
}

/// Every pair of worked automata at every bound, and every pair of the files in this folder at one of the first few.
pub fn named_files(lines: &mut Lines, seed: u64, examples: &Path) {
    let random = &mut Random::new(seed, 0);
    let worked = worked().map(|(name, plain)| (name, plain.file()));
    for (first, held) in &worked {
        for (second, offer) in &worked {
            for bound in BOUNDS {
                let name = format!("{second} offered to {first}");
                lines.compare(&name, &[bound], [Some(held), Some(offer)]);
            }
        }
    }
    let mut paths: Vec<PathBuf> = fs::read_dir(examples)
        .expect("the examples are there")
        .map(|item| item.expect("the examples can be listed").path())
        .filter(|path| path.extension().is_some_and(|extension| extension == "ba"))
        .collect();
    paths.sort();
    assert!(paths.len() > 20, "{} has the examples", examples.display());
    let files: Vec<Vec<u8>> = paths.iter().map(|path| fs::read(path).expect("an example")).collect();
    for (first, held) in paths.iter().zip(&files) {
        for (second, offer) in paths.iter().zip(&files) {
            let name = format!("{} offered to {}", second.display(), first.display());
            lines.compare(&name, &[random.below(4) as u8], [Some(held), Some(offer)]);
        }
    }
}

/// Two automata of which the second is mostly the smaller one.
fn pair(random: &mut Random) -> [Plain; 2] {
    let (states, letters) = (draw_states(random).min(28), draw_letters(random));
    let smaller = Plain::drawn(random, states, letters).trimmed();
    let mut larger = smaller.grown(random);
    for _ in 0..random.below(3) {
        larger = larger.grown(random);
    }
    match random.below(10) {
        0..=3 => [larger.renumbered(random), smaller],
        4..=5 => [larger, smaller.nearly(random).trimmed()],
        6 => [larger.nearly(random).trimmed(), smaller],
        7 => [larger, smaller.without_a_transition(random)],
        8 => {
            let letters = draw_letters(random);
            [larger, Plain::drawn(random, states, letters)]
        }
        _ => [Plain::drawn(random, states, letters).padded(32), smaller],
    }
}

/// Drawn pairs; now and then a file is spoilt or missing, or the input has another length.
pub fn drawn_pairs(lines: &mut Lines, seed: u64, cases: usize) {
    for case in 0..cases {
        let random = &mut Random::new(seed, case);
        let mut files = pair(random).map(|plain| Some(plain.shuffled_file(random)));
        for file in &mut files {
            match random.below(40) {
                0..=5 => *file = file.as_ref().map(|bytes| damaged(random, bytes)),
                6 => *file = None,
                _ => {}
            }
        }
        let bound = match random.below(8) {
            0..=4 => random.below(4) as u8,
            5..=6 => random.below(15) as u8,
            _ => random.pick(&[14, 15, 16, 128, 255]),
        };
        let input = match random.below(60) {
            0 => vec![],
            1 => vec![bound, random.byte()],
            _ => vec![bound],
        };
        let name = format!("pair {case} of seed {seed:#x}");
        lines.compare(&name, &input, files.each_ref().map(Option::as_deref));
    }
}

/// Every truncation of F and G, held and offered.
pub fn truncations(lines: &mut Lines) {
    let [(_, held), (_, offer), ..] = worked().map(|(name, plain)| (name, plain.file()));
    for length in 0..held.len() {
        lines.compare(
            &format!("F cut to {length}"),
            &[1],
            [Some(&held[..length]), Some(&offer)],
        );
    }
    for length in 0..offer.len() {
        lines.compare(
            &format!("G cut to {length}"),
            &[1],
            [Some(&held), Some(&offer[..length])],
        );
    }
}

/// An automaton with 32 states, 16 letters and so many accepting states and transitions. All states reach the initial state,
/// which accepts and loops.
fn large(accepting: usize, transitions: usize) -> Plain {
    let mut plain = Plain::bare(32, 16, 0);
    plain.accepting = ((1_u64 << accepting) - 1) as u32;
    let places = (0..32).flat_map(|to| (0..32 * 16).map(move |row| (row, to)));
    for (row, to) in places.take(transitions) {
        plain.rows[row] |= 1 << to;
    }
    plain
}

/// Files of up to 65,536 bytes and above, whole and faulty, besides files that are missing, with inputs of several lengths.
pub fn lengths(lines: &mut Lines) {
    let [(_, f), (_, g), ..] = worked().map(|(name, plain)| (name, plain.file()));
    let full = large(3, 13_104).file();
    assert_eq!(full.len(), MAX_FILE);
    let nearly_full = large(2, 13_103).file();
    let over = large(5, 13_103).file();
    assert_eq!(over.len(), MAX_FILE + 1);
    let zeros = vec![0; MAX_FILE + 1];
    let smaller = everything(16).padded(2).file();
    let files = [
        ("none", None),
        ("no bytes", Some([].as_slice())),
        ("F", Some(f.as_slice())),
        ("G", Some(&g)),
        ("a small one", Some(&smaller)),
        ("65,528 bytes", Some(&nearly_full)),
        ("65,536 bytes", Some(&full)),
        ("65,537 bytes", Some(&over)),
        ("65,536 zeros", Some(&zeros[1..])),
        ("65,537 zeros", Some(&zeros)),
    ];
    for (first, held) in files {
        for (second, offer) in files {
            let name = format!("{second} offered to {first}");
            for input in [[].as_slice(), &[0], &[1], &[15], &[1, 1], &[1, 10], &[0; 3]] {
                lines.compare(&name, input, [held, offer]);
            }
        }
    }
}

/// Rings whose walk at bound 0 has its final vertex at this place, up to 4,096: the runs come into the rings so many states later
/// that they have this many letters left to the end of the round.
fn rings_with_final(place: usize) -> [Plain; 2] {
    let (ring, rings, ahead) = (13, [5, 7, 9], MAX_SLOTS - place);
    let (mut left, mut right) = (left_rings(Start::Again, ring), right_rings(Start::Again, &rings, true));
    let firsts = [0, 5, 12];
    left.rows[ring * 2 + 1] = 1 << (ahead % ring);
    right.rows[21 * 2 + 1] = (0..3).fold(0, |set, place| set | 1 << (firsts[place] + ahead % rings[place]));
    [left, right]
}

/// Walks near the number of slots that the program has, in both directions, and long words of letters with one and two digits.
pub fn long_walks(lines: &mut Lines) {
    for length in 7..=12 {
        for bound in [0, 3] {
            let (sets, all) = (window(length), everything(2));
            let name = format!("a window of {length}");
            lines.compare_offer(&name, bound, &all.padded(20), &sets);
            lines.compare_offer(&name, bound, &sets, &all);
        }
    }
    let slots = WORK_BYTES / SLOT_BYTES;
    for (left, right) in [(13, [5, 7]), (29, [7, 8]), (26, [7, 9])] {
        assert!((left * right[0] * right[1] < slots) == (left != 26));
        for start in [Start::Apart, Start::Again] {
            let (held, offer) = (left_rings(start, left).padded(32), right_rings(start, &right, true));
            let name = format!("rings of {left} and {right:?}, {start:?}");
            lines.compare_offer(&name, 0, &held, &offer);
            lines.compare_offer(&name, 0, &held.behind_letters(14), &offer.behind_letters(14));
        }
    }
    for (place, begins) in [(slots - 1, "forward"), (slots, "forward"), (slots + 1, "refused")] {
        let [held, offer] = rings_with_final(place);
        let (name, held) = (format!("a final vertex at {place}"), held.padded(32));
        assert!(second::listing(&[0], &held.file(), &offer.file()).starts_with(begins.as_bytes()));
        lines.compare_offer(&name, 0, &held, &offer);
    }
}
