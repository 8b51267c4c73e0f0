//! The automata, files and words of the rows. All are drawn from fixed seeds, so each run measures the same calls.

use differential::automata::{everything, full, window, worked, Plain};
use differential::formulas::Formula;
use differential::random::Random;
use differential::texts::{Declared, Described};
use second::lasso::MAX_LASSO;
use second::walk::MAX_SLOTS;

use crate::calls::{Buffers, Call};
use crate::checkers::SECOND;

const PAIRS_SEED: u64 = 0xBE4C_0001;
const DENSE_SEED: u64 = 0xBE4C_0002;
const SPARSE_SEED: u64 = 0xBE4C_0003;
const HISTORY_SEED: u64 = 0xBE4C_0004;
const WORDS_SEED: u64 = 0xBE4C_0005;
const WRITE_SEED: u64 = 0xBE4C_0006;
const TEXT_SEED: u64 = 0xBE4C_0007;

/// Calls of a row with small files.
const SMALL_CALLS: usize = 32;

/// Each transition of all with the chance `part` in `whole`; half of the states accept.
fn drawn(random: &mut Random, states: usize, letters: usize, part: usize, whole: usize) -> Plain {
    let mut plain = Plain::bare(states, letters, 0);
    plain.accepting = random.bits() as u32 & (u32::MAX >> (32 - states));
    for row in &mut plain.rows {
        *row = (0..states).fold(0, |row, to| row | u32::from(random.chance(part, whole)) << to);
    }
    plain.trimmed()
}

/// One transition for each state and letter; half of the states accept.
fn deterministic(random: &mut Random, states: usize, letters: usize) -> Plain {
    let mut plain = drawn(random, states, letters, 1, 1);
    for row in &mut plain.rows {
        *row = 1 << random.below(states);
    }
    plain.trimmed()
}

/// An automaton of the size that libraries hold, with 2 or 4 letters.
fn small(random: &mut Random, states: usize) -> Plain {
    let letters = random.pick(&[2, 4]);
    Plain::drawn(random, states, letters).trimmed()
}

fn contain(left: &Plain, right: &Plain, bound: u64, slots: usize) -> Call {
    Call::Contain {
        files: [left.file(), right.file()],
        bound,
        slots,
    }
}

/// Is the call's answer of this kind, with a count of at least 3?
fn is_wanted(call: &Call, kind: u64) -> bool {
    let mut buffers = Buffers::filled();
    call.make(&SECOND, &mut buffers);
    let number = buffers.numbers[0];
    number & 0xFF == kind && number >> 8 & 0xFFFF >= 3
}

/// Small automata with small changes (kind 1), or with states doubled and renumbered (kind 0), at bound 1.
pub fn small_pairs(kind: u64) -> Vec<Call> {
    let pair = |case: usize| {
        let random = &mut Random::new(PAIRS_SEED, case);
        let states = random.between(2, 10);
        let left = small(random, states);
        let right = match kind {
            0 => left.grown(random).grown(random).renumbered(random),
            _ => left.nearly(random),
        };
        [left, right.trimmed()]
    };
    let sizes = |pair: &[Plain; 2]| pair.iter().all(|plain| (2..=12).contains(&plain.states));
    let pairs = (0..).map(pair).filter(sizes);
    let calls = pairs.map(|[left, right]| contain(&left, &right, 1, MAX_SLOTS));
    calls.filter(|call| is_wanted(call, kind)).take(SMALL_CALLS).collect()
}

/// 32 states and 16 letters with half of all transitions, in itself.
pub fn dense_contained() -> Vec<Call> {
    let plain = drawn(&mut Random::new(DENSE_SEED, 0), 32, 16, 1, 2);
    vec![contain(&plain, &plain, 0, MAX_SLOTS)]
}

/// The same density; the left automaton accepts everywhere, the right one nowhere on the last letter.
pub fn dense_differs() -> Vec<Call> {
    let random = &mut Random::new(DENSE_SEED, 1);
    let mut left = drawn(random, 32, 16, 1, 2);
    left.accepting = u32::MAX;
    let mut right = drawn(random, 32, 16, 1, 2);
    right.accepting = 0xFFFF_0000;
    for row in right.rows.iter_mut().skip(15).step_by(16) {
        *row = *row & 0xFFFF | 1;
    }
    vec![contain(&left, &right, 14, MAX_SLOTS)]
}

/// Everything in the window of 12 letters: 4,096 vertices.
pub fn full_contained() -> Vec<Call> {
    vec![contain(&everything(2), &window(12), 0, MAX_SLOTS)]
}

/// The words over two letters in a window that accepts at its end only, at bound 12: twelve letters 0 show the difference, after the
/// 4,095 words of up to eleven letters. A third letter, read alone, leads to one vertex more.
pub fn full_differs() -> Vec<Call> {
    let transitions = [(0, 0, 1), (0, 1, 1), (1, 0, 1), (1, 1, 1), (0, 2, 2), (2, 2, 2)];
    let left = Plain::of(3, 3, &[0, 1, 2], &transitions);
    let window = window(13);
    let mut right = Plain::of(15, 3, &[13, 14], &[(0, 2, 14), (14, 2, 14)]);
    for (to, from) in right.rows.chunks_mut(3).zip(window.rows.chunks(2)) {
        to[..2].copy_from_slice(from);
    }
    vec![contain(&left, &right, 12, MAX_SLOTS)]
}

/// 32 states and 4 letters with few transitions: there are more vertices than slots.
pub fn full_refused() -> Vec<Call> {
    let random = &mut Random::new(SPARSE_SEED, 2);
    let left = drawn(random, 32, 4, 1, 16);
    let right = drawn(random, 32, 4, 1, 10);
    vec![contain(&left, &right, 6, MAX_SLOTS)]
}

/// Everything in the window of 13 letters, which has 8,192 vertices, with so many slots.
pub fn with_slots(slots: usize) -> Vec<Call> {
    vec![contain(&everything(2), &window(13), 0, slots)]
}

fn word(random: &mut Random, letters: usize) -> Vec<u8> {
    (0..MAX_LASSO).map(|_| random.below(letters) as u8).collect()
}

/// The longest stem and loop on an entry with this automaton.
fn verdict(plain: &Plain, random: &mut Random) -> Vec<Call> {
    let mut entry = vec![0; second::ENTRY_BYTES];
    assert_eq!(second::entry_open(&mut entry, &plain.file()), 0);
    let stem = word(random, plain.letters);
    let cycle = word(random, plain.letters);
    vec![Call::Verdict { entry, stem, cycle }]
}

pub fn dense_verdict() -> Vec<Call> {
    let random = &mut Random::new(WORDS_SEED, 0);
    verdict(&drawn(random, 32, 16, 1, 2), random)
}

pub fn small_verdict() -> Vec<Call> {
    let random = &mut Random::new(WORDS_SEED, 1);
    verdict(&drawn(random, 8, 2, 1, 4), random)
}

/// Opens of small files.
pub fn small_opens() -> Vec<Call> {
    let open = |case: usize| {
        let random = &mut Random::new(PAIRS_SEED, case);
        let states = random.between(2, 12);
        let files = vec![small(random, states).file()];
        Call::History { files, bound: 0 }
    };
    (0..SMALL_CALLS).map(open).collect()
}

/// An open and eight offers, each with one state less, which are all taken.
fn history(first: Plain, random: &mut Random) -> Vec<Call> {
    let mut editions = vec![first];
    for _ in 0..8 {
        let last = &editions[editions.len() - 1];
        editions.push(last.grown(random));
    }
    let files = editions.iter().rev().map(Plain::file).collect();
    vec![Call::History { files, bound: 2 }]
}

/// From 12 states to 4.
pub fn small_history() -> Vec<Call> {
    let random = &mut Random::new(HISTORY_SEED, 0);
    history(drawn(random, 4, 2, 1, 2), random)
}

/// From 32 states to 24.
pub fn large_history() -> Vec<Call> {
    let random = &mut Random::new(HISTORY_SEED, 1);
    history(deterministic(random, 24, 4), random)
}

/// The longest well-formed file: 32 states that all accept, and every transition on 16 letters.
fn longest() -> Vec<u8> {
    full(32, 16).file()
}

pub fn longest_opened() -> Vec<Call> {
    vec![Call::History {
        files: vec![longest()],
        bound: 0,
    }]
}

/// The longest file without its end record.
pub fn longest_refused() -> Vec<Call> {
    let mut file = longest();
    file.truncate(file.len() - 2);
    vec![Call::History {
        files: vec![file],
        bound: 0,
    }]
}

/// Writes of small files, their records in any order.
pub fn small_writes() -> Vec<Call> {
    let write = |case: usize| {
        let random = &mut Random::new(PAIRS_SEED, case);
        let states = random.between(2, 12);
        let file = small(random, states).shuffled_file(random);
        Call::Write { file }
    };
    (0..SMALL_CALLS).map(write).collect()
}

/// A write of a file of so many bytes: 32 states that all accept, and some or all of the transitions on 16 letters, in any order.
pub fn large_write(bytes: usize) -> Vec<Call> {
    let random = &mut Random::new(WRITE_SEED, 0);
    let mut transitions: Vec<usize> = (0..32 * 16 * 32).collect();
    random.shuffle(&mut transitions);
    let mut plain = Plain::bare(32, 16, 0);
    plain.accepting = u32::MAX;
    let others = plain.file().len();
    for transition in &transitions[..(bytes - others) / 5] {
        plain.rows[transition / 32] |= 1 << (transition % 32);
    }
    let file = plain.shuffled_file(random);
    assert_eq!(file.len(), bytes);
    vec![Call::Write { file }]
}

/// A Hanoi text as translators print it: a line for each item, state and edge, blanks around `|` and nowhere else in a label.
fn text(described: &Described) -> Vec<u8> {
    let Described {
        states,
        start,
        propositions,
        declared,
    } = described;
    let names: String = (0..*propositions).map(|number| format!(" \"p{number}\"")).collect();
    let mut text = format!("HOA: v1\nStates: {states}\nStart: {start}\nAP: {propositions}{names}\n");
    text += "acc-name: Buchi\nAcceptance: 1 Inf(0)\n--BODY--\n";
    for Declared { state, accepts, edges } in declared {
        text += &format!("State: {state}{}\n", if *accepts { " {0}" } else { "" });
        for (label, to) in edges {
            text += "[";
            label.spell(&mut |token| text += if token == "|" { " | " } else { token });
            text += &format!("] {to}\n");
        }
    }
    (text + "--END--\n").into_bytes()
}

fn hanoi(described: &Described) -> Vec<Call> {
    let text = text(described);
    vec![Call::Hanoi { text }]
}

/// F as a text.
pub fn small_text() -> Vec<Call> {
    let [(_, f), ..] = worked();
    hanoi(&Described::of_plain(&f))
}

/// A text of so many states and edges, with labels of up to three levels; half of the states accept.
pub fn drawn_text(states: usize, propositions: usize, edges: usize) -> Vec<Call> {
    let random = &mut Random::new(TEXT_SEED, 0);
    let mut edge = |_| (Formula::drawn(random, propositions, 3), random.below(states));
    let declared = |state| Declared {
        state,
        accepts: state % 2 == 1,
        edges: (0..edges / states).map(&mut edge).collect(),
    };
    hanoi(&Described {
        states,
        start: 0,
        propositions,
        declared: (0..states).map(declared).collect(),
    })
}

/// A text with one edge, whose label is a chain of so many propositions.
pub fn chain_text(operands: usize) -> Vec<Call> {
    let operands = (0..operands).map(|place| Formula::Proposition(place % 4));
    let edges = vec![(Formula::Or(operands.collect()), 0)];
    hanoi(&Described {
        states: 1,
        start: 0,
        propositions: 4,
        declared: vec![Declared {
            state: 0,
            accepts: true,
            edges,
        }],
    })
}
