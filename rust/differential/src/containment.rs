//! Contain: the kernel against the second checker.

use edition::archive;
use second::walk::{MAX_SLOTS, SLOT_BYTES};

use crate::automata::{
    damaged, draw_letters, draw_states, everything, left_rings, right_rings, ring, window, worked, Plain, Start,
};
use crate::buffer::Buffer;
use crate::random::Random;
use crate::tally::Tally;

/// Every outcome of contain: its kind, with the file for 1 to 6.
pub const OUTCOMES: [(u64, u64); 18] = [
    (0, 0),
    (1, 0),
    (101, 1),
    (101, 2),
    (102, 1),
    (102, 2),
    (103, 1),
    (103, 2),
    (104, 1),
    (104, 2),
    (105, 1),
    (105, 2),
    (106, 1),
    (106, 2),
    (107, 0),
    (108, 0),
    (110, 0),
    (111, 0),
];

/// Slots of the walk that is made beforehand to learn how many slots and letters a case needs.
const PROBE_SLOTS: usize = 300;

/// Bytes of that walk's word buffer.
const PROBE_WORD: usize = 2048;

fn kind(number: u64) -> u64 {
    number & 0xFF
}

/// Calls both checkers with equal arguments and compares the number and every byte of both buffers and their guards. The number is the
/// second checker's.
pub fn compare(
    random: &mut Random,
    tally: &mut Tally,
    name: &str,
    files: [&[u8]; 2],
    bound: u64,
    lengths: [usize; 2],
) -> u64 {
    let [first, second] = files.map(|file| Buffer::holding(random, file));
    let mut kernel_work = Buffer::filled(random, lengths[0]);
    let mut kernel_word = Buffer::filled(random, lengths[1]);
    let (mut second_work, mut second_word) = (kernel_work.clone(), kernel_word.clone());
    let (kept_first, kept_second) = (first.clone(), second.clone());
    let got = archive::contain(
        first.contents(),
        second.contents(),
        bound,
        kernel_work.lent(),
        kernel_word.lent(),
    );
    let expected = second::contain(files[0], files[1], bound, second_work.lent(), second_word.lent());
    let detail = match kind(expected) {
        101..=106 => expected >> 8 & 0xFFFF,
        _ => 0,
    };
    tally.add(kind(expected), detail);
    if kind(expected) <= 1 {
        tally.extend(expected >> 8 & 0xFFFF, expected >> 24);
    }
    let mut faults = Vec::new();
    if got != expected {
        faults.push(format!("kernel {got}, second {expected}"));
    }
    if let Some(place) = kernel_work.difference(&second_work) {
        faults.push(format!("work differs at {place}"));
    }
    if let Some(place) = kernel_word.difference(&second_word) {
        faults.push(format!("word differs at {place}"));
    }
    if first != kept_first || second != kept_second {
        faults.push("a file was written".to_string());
    }
    if !faults.is_empty() {
        let [work_length, word_length] = lengths;
        let what = format!(
            "{name}, bound {bound}, work {work_length}, word {word_length}: {}",
            faults.join("; ")
        );
        let inputs = [("first", files[0]), ("second", files[1])];
        tally.disagree(&what, &inputs);
    }
    expected
}

/// Two automata with something in common.
fn pair(random: &mut Random) -> [Plain; 2] {
    let letters = draw_letters(random);
    let (states, others) = (draw_states(random), draw_states(random));
    match random.below(20) {
        0..=5 => [
            Plain::drawn(random, states, letters),
            Plain::drawn(random, others, letters),
        ],
        6..=10 => {
            let first = Plain::drawn(random, states, letters);
            let second = first.nearly(random);
            [first, second]
        }
        11..=13 => {
            let first = Plain::drawn(random, states, letters).trimmed();
            let second = first.nearly(random).trimmed();
            [second, first]
        }
        14..=15 => {
            let second = Plain::drawn(random, states, letters).trimmed();
            let mut first = second.clone();
            for _ in 0..random.below(4) {
                first = first.without_a_transition(random);
            }
            [first, second]
        }
        16 => {
            let first = Plain::drawn(random, states, letters).trimmed();
            let second = first.grown(random).grown(random).renumbered(random);
            [first, second]
        }
        17 => [everything(letters), ring(random.between(1, 18), letters)],
        18 => [
            ring(random.between(1, 6), letters),
            ring(random.between(1, 12), letters).nearly(random),
        ],
        _ => [Plain::drawn(random, states, 2), window(random.between(2, 5))],
    }
}

pub fn draw_bound(random: &mut Random) -> u64 {
    match random.below(40) {
        0..=24 => random.below(4) as u64,
        25..=36 => random.below(15) as u64,
        37 => 14,
        _ => random.pick(&[15, 16, 17, 255, 256, 257, 1 << 16, 1 << 32, 1 << 40, u64::MAX]),
    }
}

/// A length near what is needed, or another one.
fn draw_near(random: &mut Random, needed: usize, others: &[usize]) -> usize {
    match random.below(10) {
        0..=1 => needed,
        2 => needed.saturating_sub(1),
        3 => needed + 1,
        _ => random.pick(others),
    }
}

/// Pairs of drawn files.
pub fn drawn_pairs(tally: &mut Tally, seed: u64, cases: usize) {
    for case in 0..cases {
        let random = &mut Random::new(seed, case);
        let mut automata = pair(random);
        if random.chance(17, 20) {
            automata = automata.map(|plain| plain.trimmed());
        }
        if random.chance(1, 60) {
            let (states, letters) = (draw_states(random), draw_letters(random));
            automata[random.below(2)] = Plain::drawn(random, states, letters).trimmed();
        }
        let mut files = automata.map(|plain| plain.shuffled_file(random));
        for file in &mut files {
            if random.chance(1, 10) {
                *file = damaged(random, file);
            }
        }
        let bound = draw_bound(random);
        let files = [files[0].as_slice(), files[1].as_slice()];
        let (mut work, mut word) = (vec![0; PROBE_SLOTS * SLOT_BYTES], vec![0; PROBE_WORD]);
        let probe = second::contain(files[0], files[1], bound, &mut work, &mut word);
        let (count, length) = ((probe >> 8 & 0xFFFF) as usize, (probe >> 24) as usize);
        let slots = draw_near(random, count, &[0, 1, 2, 3, 5, 8, 13, 30, 64, 200, PROBE_SLOTS]);
        let rest = if random.chance(1, 2) {
            0
        } else {
            random.below(SLOT_BYTES)
        };
        let word_length = draw_near(random, length, &[0, 1, 2, 3, 7, 16, 64, PROBE_WORD]);
        let name = format!("pair {case} of seed {seed:#x}");
        compare(
            random,
            tally,
            &name,
            files,
            bound,
            [slots * SLOT_BYTES + rest, word_length],
        );
    }
}

/// Pairs with long walks, some beyond the most slots that a walk uses.
pub fn long_walks(tally: &mut Tally, seed: u64, cases: usize) {
    for case in 0..cases {
        let random = &mut Random::new(seed, case);
        let automata = if random.chance(1, 4) {
            slow_pair(random)
        } else {
            wide_pair(random)
        };
        let files = automata.map(|plain| plain.shuffled_file(random));
        let files = [files[0].as_slice(), files[1].as_slice()];
        let bound = if random.chance(1, 4) {
            0
        } else {
            random.below(15) as u64
        };
        let (mut work, mut word) = (vec![0; MAX_SLOTS * SLOT_BYTES], vec![0; PROBE_WORD]);
        let probe = second::contain(files[0], files[1], bound, &mut work, &mut word);
        let (count, length) = ((probe >> 8 & 0xFFFF) as usize, (probe >> 24) as usize);
        let most = [MAX_SLOTS - 1, MAX_SLOTS, MAX_SLOTS + 1, MAX_SLOTS + 100, 1000];
        let work_length = draw_near(random, count, &most) * SLOT_BYTES + random.below(SLOT_BYTES);
        let lengths = [work_length, draw_near(random, length, &[0, 1, 30, PROBE_WORD])];
        let name = format!("long walk {case} of seed {seed:#x}");
        compare(random, tally, &name, files, bound, lengths);
    }
}

/// Many sets of right states.
fn wide_pair(random: &mut Random) -> [Plain; 2] {
    let states = random.between(2, 6);
    let left = match random.below(3) {
        0 => everything(2),
        1 => Plain::drawn(random, states, 2).trimmed(),
        _ => ring(random.between(2, 5), 2),
    };
    let mut right = window(random.between(6, 13));
    if random.chance(1, 2) {
        right.accepting &= random.bits() as u32;
    }
    [left, right]
}

/// Two rings, each step of the left one on a letter of its own. The left ring accepts at one place, the right one everywhere but
/// at one place, so at bound 0 the word may be nearly as long as the product of the rings.
fn slow_pair(random: &mut Random) -> [Plain; 2] {
    let letters = draw_letters(random);
    let mut left = ring(random.between(20, 32), letters);
    for state in 0..left.states {
        let kept = random.below(letters);
        for letter in (0..letters).filter(|&letter| letter != kept) {
            left.rows[state * letters + letter] = 0;
        }
    }
    let mut right = ring(random.between(20, 32), letters);
    let all = u32::MAX >> (32 - right.states);
    right.accepting = all & !(1 << random.below(right.states));
    [left, right]
}

/// The left ring of the longest walks.
const LEFT_RING: usize = 13;

/// The right rings of the longest walks.
const RIGHT_RINGS: [usize; 3] = [5, 7, 9];

/// Rings that come round after 4,095 letters; with a state that stays in each right ring they have a word.
pub fn rings(start: Start, stays: bool) -> [Plain; 2] {
    [left_rings(start, LEFT_RING), right_rings(start, &RIGHT_RINGS, stays)]
}

/// Compares a pair at bound 0 whose number is known.
fn compare_known(random: &mut Random, tally: &mut Tally, pair: &[Plain; 2], lengths: [usize; 2], expected: u64) {
    let files = pair.each_ref().map(Plain::file);
    let files = [files[0].as_slice(), files[1].as_slice()];
    let found = compare(random, tally, "rings", files, 0, lengths);
    if found != expected {
        let what = format!("rings, lengths {lengths:?}: second {found}, expected {expected}");
        tally.disagree(&what, &[("first", files[0]), ("second", files[1])]);
    }
}

/// The longest walks and words, with the bytes that they need, with one byte less and with more.
pub fn longest(tally: &mut Tally, seed: u64) {
    let random = &mut Random::new(seed, 0);
    let work = MAX_SLOTS * SLOT_BYTES;
    let (full, short) = (4096 << 8, 110 + (4095 << 8));
    let contained = rings(Start::Again, false);
    for (length, expected) in [(work, full), (work + SLOT_BYTES, full), (work - 1, short)] {
        compare_known(random, tally, &contained, [length, 0], expected);
    }
    for (start, letters) in [(Start::Apart, 4095), (Start::Again, 4096)] {
        let differs = rings(start, true);
        let length = (letters as u64) << 24;
        let answers = [
            ([work, letters], 1 + full + length),
            ([work + SLOT_BYTES, letters + 1], 1 + full + length),
            ([work - 1, letters], short),
            ([work, letters - 1], 111 + length),
        ];
        for (lengths, expected) in answers {
            compare_known(random, tally, &differs, lengths, expected);
        }
    }
}

/// Every truncation and every change of one byte of the worked files, as first and as second file, beside each worked file.
pub fn worked_files(tally: &mut Tally, seed: u64) {
    let files = worked().map(|(name, plain)| (name, plain.file()));
    let random = &mut Random::new(seed, 0);
    for (name, file) in &files {
        let cuts = (0..file.len()).map(|length| (format!("{name} cut to {length}"), file[..length].to_vec()));
        let changes = (0..file.len()).flat_map(|place| {
            (1..=255).map(move |change: u8| {
                let mut changed = file.clone();
                changed[place] ^= change;
                (format!("{name} with byte {place} {:#04x}", changed[place]), changed)
            })
        });
        for (what, spoilt) in cuts.chain(changes).chain([(name.to_string(), file.clone())]) {
            for (other, whole) in files.iter().filter(|(_, whole)| whole[3] == file[3]) {
                let bound = random.below(3) as u64;
                let lengths = [random.between(0, 20) * SLOT_BYTES + random.below(2), random.below(4)];
                compare(
                    random,
                    tally,
                    &format!("{what} in {other}"),
                    [&spoilt, whole],
                    bound,
                    lengths,
                );
                compare(
                    random,
                    tally,
                    &format!("{other} in {what}"),
                    [whole, &spoilt],
                    bound,
                    lengths,
                );
            }
        }
    }
}
