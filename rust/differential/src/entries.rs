//! Entries in their byte form: open, offer and verdict of a checker against the second checker.

use edition::archive;
use second::entry::LAST_EDITION;
use second::lasso::MAX_LASSO;
use second::walk::{MAX_SLOTS, SLOT_BYTES};
use second::{Entry, ENTRY_BYTES};

use crate::automata::{damaged, draw_letters, draw_states, everything, ring, window, Plain, Start};
use crate::buffer::Buffer;
use crate::containment::{draw_bound, rings};
use crate::random::Random;
use crate::tally::Tally;

/// An offer: entry, file, bound, work, word.
type OfferCall = fn(&mut [u8], &[u8], u64, &mut [u8], &mut [u8]) -> u64;

/// The calls of a checker.
pub struct Calls {
    pub open: fn(&mut [u8], &[u8]) -> u64,
    pub offer: OfferCall,
    pub verdict: fn(&[u8], &[u8], &[u8]) -> u64,
}

impl Calls {
    /// The kernel's.
    pub const KERNEL: Calls = Calls {
        open: archive::entry_open,
        offer: archive::entry_offer,
        verdict: archive::entry_verdict,
    };

    /// The second checker's.
    pub const SECOND: Calls = Calls {
        open: second::entry_open,
        offer: second::entry_offer,
        verdict: second::entry_verdict,
    };
}

const OPEN_OUTCOMES: [(u64, u64); 9] = [
    (0, 0),
    (101, 0),
    (102, 0),
    (103, 0),
    (104, 0),
    (105, 0),
    (106, 0),
    (109, 0),
    (112, 0),
];

/// Kinds of offer, with the walk for 10 and 11.
const OFFER_OUTCOMES: [(u64, u64); 18] = [
    (0, 0),
    (1, 0),
    (2, 0),
    (101, 0),
    (102, 0),
    (103, 0),
    (104, 0),
    (105, 0),
    (106, 0),
    (107, 0),
    (108, 0),
    (109, 0),
    (110, 1),
    (110, 2),
    (111, 1),
    (111, 2),
    (113, 0),
    (114, 0),
];

const VERDICT_OUTCOMES: [(u64, u64); 5] = [(0, 0), (1, 0), (109, 0), (113, 0), (115, 0)];

/// Slots of an ample work buffer.
const AMPLE_SLOTS: usize = 400;

/// Bytes of an ample word buffer.
const AMPLE_WORD: usize = 512;

pub struct Tallies {
    open: Tally,
    offer: Tally,
    verdict: Tally,
}

impl Default for Tallies {
    fn default() -> Tallies {
        Tallies {
            open: Tally::new("entry_open"),
            offer: Tally::new("entry_offer"),
            verdict: Tally::new("entry_verdict"),
        }
    }
}

impl Tallies {
    /// Disagreements noted so far.
    pub fn disagreements(&self) -> usize {
        [&self.open, &self.offer, &self.verdict]
            .map(Tally::disagreements)
            .iter()
            .sum()
    }

    /// Prints the share of offers that were taken; true if it is at least one in five.
    pub fn conclude_share(&self) -> bool {
        let (taken, offers) = (self.offer.of(0, 0), self.offer.total());
        println!("entries: {taken} of {offers} offers in lists were taken");
        5 * taken >= offers
    }

    pub fn conclude(&self) -> bool {
        self.open.conclude(&OPEN_OUTCOMES)
            & self.offer.conclude(&OFFER_OUTCOMES)
            & self.verdict.conclude(&VERDICT_OUTCOMES)
    }
}

/// What an offer brings besides its file: the bound, and the lengths of its buffers.
pub struct Terms {
    pub bound: u64,
    pub work: usize,
    pub word: usize,
}

/// One entry at each of the two checkers.
pub struct History<'a> {
    calls: &'a Calls,
    tallies: &'a mut Tallies,
    name: String,
    compared: Buffer,
    second: Buffer,
}

/// Notes the places at which buffers differ.
fn note_differences(faults: &mut Vec<String>, pairs: &[(&str, &Buffer, &Buffer)]) {
    for (name, compared, second) in pairs {
        if let Some(place) = compared.difference(second) {
            faults.push(format!("{name} differs at {place}"));
        }
    }
}

impl<'a> History<'a> {
    pub fn new(
        random: &mut Random,
        calls: &'a Calls,
        tallies: &'a mut Tallies,
        name: String,
        entry: &[u8],
    ) -> History<'a> {
        let compared = Buffer::holding(random, entry);
        let second = compared.clone();
        History {
            calls,
            tallies,
            name,
            compared,
            second,
        }
    }

    /// The entry's bytes.
    pub fn entry(&self) -> &[u8] {
        self.second.contents()
    }

    /// The automaton that the entry holds.
    fn held(&self) -> Option<Plain> {
        let entry = Entry::from_bytes(self.second.contents()).ok()?;
        entry
            .edition()
            .map(|edition| Plain::from_automaton(edition.automaton()))
    }

    pub fn open(&mut self, random: &mut Random, file: &[u8]) -> u64 {
        let before = self.second.contents().to_vec();
        let lent = Buffer::holding(random, file);
        let kept = lent.clone();
        let got = (self.calls.open)(self.compared.lent(), lent.contents());
        let expected = second::entry_open(self.second.lent(), file);
        self.tallies.open.add(expected, 0);
        let mut faults = Vec::new();
        if got != expected {
            faults.push(format!("checker {got}, second {expected}"));
        }
        note_differences(
            &mut faults,
            &[("entry", &self.compared, &self.second), ("file", &lent, &kept)],
        );
        if !faults.is_empty() {
            let what = format!("{}: {}", self.name, faults.join("; "));
            self.tallies.open.disagree(&what, &[("entry", &before), ("file", file)]);
            self.compared = self.second.clone();
        }
        expected
    }

    pub fn offer(&mut self, random: &mut Random, file: &[u8], terms: &Terms) -> u64 {
        let before = self.second.contents().to_vec();
        let lent = Buffer::holding(random, file);
        let kept = lent.clone();
        let mut work = Buffer::filled(random, terms.work);
        let mut word = Buffer::filled(random, terms.word);
        let (mut second_work, mut second_word) = (work.clone(), word.clone());
        let bound = terms.bound;
        let got = (self.calls.offer)(self.compared.lent(), lent.contents(), bound, work.lent(), word.lent());
        let expected = second::entry_offer(self.second.lent(), file, bound, second_work.lent(), second_word.lent());
        self.tallies.offer.add(expected & 0xFF, expected >> 56);
        if expected & 0xFF <= 2 {
            let [forward, back, length] = [8, 24, 40].map(|shift| expected >> shift & 0xFFFF);
            self.tallies.offer.extend(forward.max(back), length);
        }
        let mut faults = Vec::new();
        if got != expected {
            faults.push(format!("checker {got:#x}, second {expected:#x}"));
        }
        let pairs = [
            ("entry", &self.compared, &self.second),
            ("file", &lent, &kept),
            ("work", &work, &second_work),
            ("word", &word, &second_word),
        ];
        note_differences(&mut faults, &pairs);
        if !faults.is_empty() {
            let (name, faults) = (&self.name, faults.join("; "));
            let what = format!(
                "{name}, bound {bound}, work {}, word {}: {faults}",
                terms.work, terms.word
            );
            self.tallies
                .offer
                .disagree(&what, &[("entry", &before), ("file", file)]);
            self.compared = self.second.clone();
        }
        expected
    }

    pub fn verdict(&mut self, stem: &[u8], cycle: &[u8]) -> u64 {
        let got = (self.calls.verdict)(self.compared.contents(), stem, cycle);
        let expected = second::entry_verdict(self.second.contents(), stem, cycle);
        self.tallies.verdict.add(expected, 0);
        let mut faults = Vec::new();
        if got != expected {
            faults.push(format!("checker {got}, second {expected}"));
        }
        note_differences(&mut faults, &[("entry", &self.compared, &self.second)]);
        if !faults.is_empty() {
            let what = format!("{}: {}", self.name, faults.join("; "));
            let inputs = [("entry", self.second.contents()), ("stem", stem), ("loop", cycle)];
            self.tallies.verdict.disagree(&what, &inputs);
            self.compared = self.second.clone();
        }
        expected
    }

    fn verdicts(&mut self, probes: &[[Vec<u8>; 2]]) -> Vec<u64> {
        probes.iter().map(|[stem, cycle]| self.verdict(stem, cycle)).collect()
    }

    /// Buffers near the limits of what the offer needs.
    fn tight(&self, random: &mut Random, file: &[u8], bound: u64) -> Terms {
        let mut entry = self.second.contents().to_vec();
        let (mut work, mut word) = (vec![0; AMPLE_SLOTS * SLOT_BYTES], vec![0; AMPLE_WORD]);
        let number = second::entry_offer(&mut entry, file, bound, &mut work, &mut word);
        let [forward, back, length] = [8, 24, 40].map(|shift| (number >> shift & 0xFFFF) as usize);
        let slots = random.pick(&[forward, forward, back, forward.max(back)]);
        let slots = if random.chance(1, 2) {
            slots.saturating_sub(1)
        } else {
            slots
        };
        Terms {
            bound,
            work: slots * SLOT_BYTES + random.below(SLOT_BYTES),
            word: if random.chance(1, 2) {
                length
            } else {
                length.saturating_sub(1)
            },
        }
    }
}

fn ample(random: &mut Random) -> Terms {
    Terms {
        bound: random.below(4) as u64,
        work: AMPLE_SLOTS * SLOT_BYTES + random.below(SLOT_BYTES),
        word: AMPLE_WORD,
    }
}

fn draw_word(random: &mut Random, letters: usize, length: usize) -> Vec<u8> {
    (0..length).map(|_| random.below(letters) as u8).collect()
}

/// An empty entry: all zeros, or with leftovers.
fn fresh(random: &mut Random) -> Vec<u8> {
    let mut entry = vec![0; ENTRY_BYTES];
    if random.chance(1, 2) {
        entry[1..].fill_with(|| random.byte());
    }
    entry
}

/// Lists of open and offer calls on one entry, with verdicts before and after each call.
pub fn lists(calls: &Calls, tallies: &mut Tallies, seed: u64, cases: usize) {
    for case in 0..cases {
        let random = &mut Random::new(seed, case);
        let name = format!("list {case} of seed {seed:#x}");
        let entry = fresh(random);
        let history = History::new(random, calls, tallies, name, &entry);
        list(random, history);
    }
}

fn list(random: &mut Random, mut history: History) {
    let letters = draw_letters(random);
    let states = draw_states(random).min(28);
    let mut ladder = vec![Plain::drawn(random, states, letters).trimmed()];
    for _ in 0..random.between(2, 6) {
        let larger = ladder[ladder.len() - 1].grown(random);
        ladder.push(larger);
    }
    let mut probes: Vec<[Vec<u8>; 2]> = Vec::new();
    for _ in 0..4 {
        let lengths = [random.below(6), random.between(1, 5)];
        probes.push(lengths.map(|length| draw_word(random, letters, length)));
    }
    probes.push([draw_word(random, letters, 3), Vec::new()]);
    history.verdicts(&probes);
    if random.chance(1, 5) {
        let (file, terms) = (ladder[0].file(), ample(random));
        history.offer(random, &file, &terms);
    }
    if random.chance(1, 3) {
        let file = damaged(random, &ladder[0].file());
        history.open(random, &file);
    }
    if random.chance(1, 5) {
        let file = Plain::drawn(random, states, letters).file();
        history.open(random, &file);
    }
    let first = ladder.pop().expect("the ladder is not empty");
    let file = first.shuffled_file(random);
    history.open(random, &file);
    let mut before = history.verdicts(&probes);
    for _ in 0..random.between(3, 9) {
        call(random, &mut history, &mut ladder);
        let after = history.verdicts(&probes);
        if after != before {
            let what = format!("{}: a verdict has changed", history.name);
            let entry = history.second.contents().to_vec();
            history.tallies.verdict.disagree(&what, &[("entry", &entry)]);
        }
        before = after;
    }
}

/// One call on an entry that is open. The ladder holds smaller automata with the same runs, the smallest first.
fn call(random: &mut Random, history: &mut History, ladder: &mut Vec<Plain>) {
    let held = history.held().expect("the entry is open");
    let next = match ladder.last() {
        Some(plain) => plain.renumbered(random),
        None => held.without_a_transition(random).trimmed(),
    };
    let mut terms = ample(random);
    match random.below(20) {
        0..=8 => {
            ladder.pop();
            let file = next.shuffled_file(random);
            history.offer(random, &file, &terms);
        }
        9..=10 => {
            let file = held.without_a_transition(random).trimmed().shuffled_file(random);
            history.offer(random, &file, &terms);
        }
        11..=12 => {
            let file = next.shuffled_file(random);
            let bound = random.below(4) as u64;
            let terms = history.tight(random, &file, bound);
            history.offer(random, &file, &terms);
        }
        13..=15 => {
            let other = match random.below(3) {
                0 => everything(held.letters),
                1 => next.nearly(random).trimmed(),
                _ => held.without_a_state(random).nearly(random).trimmed(),
            };
            let file = other.shuffled_file(random);
            if random.chance(2, 3) {
                terms = history.tight(random, &file, terms.bound);
            }
            history.offer(random, &file, &terms);
        }
        16 => {
            let file = damaged(random, &next.file());
            history.offer(random, &file, &terms);
        }
        17 => {
            let (states, letters) = (draw_states(random).min(8), draw_letters(random));
            let file = Plain::drawn(random, states, letters).file();
            terms.bound = draw_bound(random);
            history.offer(random, &file, &terms);
        }
        18 => {
            let other = if random.chance(1, 2) { held } else { next };
            let file = other.file();
            terms.bound = draw_bound(random);
            history.offer(random, &file, &terms);
        }
        _ => {
            let mut file = next.file();
            if random.chance(1, 2) {
                file = damaged(random, &file);
            }
            history.open(random, &file);
        }
    }
}

/// Offers that are turned down with the longest words: 4,095 and 4,096 letters in the forward walk.
pub fn longest(calls: &Calls, tallies: &mut Tallies, seed: u64) {
    let random = &mut Random::new(seed, 0);
    let most = MAX_SLOTS * SLOT_BYTES;
    for (start, letters) in [(Start::Apart, 4095), (Start::Again, 4096)] {
        let [held, offer] = rings(start, true);
        let name = format!("offer with a word of {letters} letters");
        let mut history = History::new(random, calls, tallies, name, &[0; ENTRY_BYTES]);
        history.open(random, &held.padded(32).file());
        let (length, walk) = ((letters as u64) << 40, 1 << 56);
        let answers = [
            ([most, letters], 1 + (4096 << 8) + length),
            ([most - 1, letters], 110 + (4095 << 8) + walk),
            ([most, letters - 1], 111 + length + walk),
        ];
        for ([work, word], expected) in answers {
            let found = history.offer(random, &offer.file(), &Terms { bound: 0, work, word });
            if found != expected {
                let what = format!("{}: second {found:#x}, expected {expected:#x}", history.name);
                history.tallies.offer.disagree(&what, &[("file", &offer.file())]);
            }
        }
    }
}

/// Entries of random and nearly valid bytes, each given to every call.
pub fn forged(calls: &Calls, tallies: &mut Tallies, seed: u64, cases: usize) {
    for case in 0..cases {
        let random = &mut Random::new(seed, case);
        let (states, letters) = (draw_states(random).min(31), draw_letters(random));
        let smaller = Plain::drawn(random, states, letters).trimmed();
        let held = smaller.grown(random);
        let entry = forge(random, &held);
        let name = format!("forged entry {case} of seed {seed:#x}");
        let mut history = History::new(random, calls, tallies, name, &entry);
        let probes = [2, 3].map(|length| [length, 1].map(|length| draw_word(random, letters, length)));
        history.verdicts(&probes);
        let (file, terms) = (smaller.shuffled_file(random), ample(random));
        for _ in 0..2 {
            history.offer(random, &file, &terms);
            history.verdicts(&probes);
        }
        history.open(random, &file);
        history.verdicts(&probes);
    }
}

/// The bytes of an entry that holds the automaton, changed in one way.
fn forge(random: &mut Random, held: &Plain) -> Vec<u8> {
    let mut entry = vec![0; ENTRY_BYTES];
    assert_eq!(second::entry_open(&mut entry, &held.file()), 0);
    let row = |state: usize, letter: usize| 13 + (state * 16 + letter) * 4;
    let (states, letters) = (held.states, held.letters);
    match random.below(16) {
        0 => {
            entry.fill_with(|| random.byte());
            entry[0] = random.pick(&[0, 1, 1, 2, 255]);
        }
        1 => entry[random.below(13)] = random.byte(),
        2 => entry[random.below(ENTRY_BYTES)] ^= 1 << random.below(8),
        3..=4 => {
            let edition = random.pick(&[1, 65_536, LAST_EDITION - 1, LAST_EDITION, LAST_EDITION + 1, u32::MAX]);
            entry[5..9].copy_from_slice(&edition.to_le_bytes());
        }
        5 => entry[4] = random.pick(&[0, states as u8 - 1, states as u8, states as u8 + 1, 32, 33, 255]),
        6 => entry.resize(random.pick(&[0, 1, 12, 13, 2060, 2062, 4096]), 0),
        7 => entry[9..13].copy_from_slice(&(1_u32 << random.below(32)).to_le_bytes()),
        8 => entry[9..13].fill(0),
        9 => {
            let (from, letter, to) = (
                random.below(states),
                random.below(letters),
                random.between(states - 1, 31),
            );
            entry[row(from, letter) + to / 8] |= 1 << (to % 8);
        }
        10 => {
            let (from, letter, to) = (random.below(32), random.below(16), random.below(states));
            entry[row(from, letter) + to / 8] |= 1 << (to % 8);
        }
        11 => entry[1] = random.pick(&[0, states as u8 - 1, states as u8 + 1, 32, 33, 255]),
        12 => entry[2] = random.pick(&[0, letters as u8 - 1, letters as u8 + 1, 16, 17, 255]),
        13 => entry[3] = random.pick(&[0, states as u8 - 1, states as u8, 31, 32, 255]),
        14 => entry[0] = random.pick(&[0, 2, 3, 128, 255]),
        _ => {}
    }
    entry
}

/// Verdicts on words whose stem and loop are at the limits or short, with a letter outside now and then.
pub fn long_words(calls: &Calls, tallies: &mut Tallies, seed: u64, cases: usize) {
    for case in 0..cases {
        let random = &mut Random::new(seed, case);
        let (states, letters) = (draw_states(random), draw_letters(random));
        let held = match random.below(4) {
            0 => Plain::drawn(random, 32, letters).trimmed(),
            1 => ring(random.between(1, 32), letters),
            2 => window(random.between(2, 31)),
            _ => Plain::drawn(random, states, letters).trimmed(),
        };
        let mut entry = vec![0; ENTRY_BYTES];
        assert_eq!(second::entry_open(&mut entry, &held.file()), 0);
        let name = format!("long word {case} of seed {seed:#x}");
        let mut history = History::new(random, calls, tallies, name, &entry);
        let stem_length = random.pick(&[0, 1, 17, MAX_LASSO - 1, MAX_LASSO, MAX_LASSO, MAX_LASSO + 1]);
        let cycle_length = random.pick(&[1, 2, 31, MAX_LASSO - 1, MAX_LASSO, MAX_LASSO, MAX_LASSO + 1]);
        let mut stem = draw_word(random, held.letters, stem_length);
        let mut cycle = draw_word(random, held.letters, cycle_length);
        if random.chance(1, 8) {
            let word = if random.chance(1, 2) { &mut stem } else { &mut cycle };
            if let Some(letter) = word.last_mut() {
                *letter = random.pick(&[held.letters as u8, 16, 255]);
            }
        }
        history.verdict(&stem, &cycle);
    }
}
