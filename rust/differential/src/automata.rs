//! Automata as they are drawn, changed and written to files.

use second::automaton::{Automaton, MAX_LETTERS, MAX_STATES};
use second::dead::dead_states;

use crate::random::Random;

/// An automaton; `rows[state * letters + letter]` holds the targets as bits.
#[derive(Clone, Debug, PartialEq, Eq)]
pub struct Plain {
    pub states: usize,
    pub letters: usize,
    pub initial: usize,
    pub accepting: u32,
    pub rows: Vec<u32>,
}

/// How transitions are drawn.
#[derive(Clone, Copy)]
enum Shape {
    Sparse,
    Random,
    Dense,
    Deterministic,
}

impl Plain {
    pub fn bare(states: usize, letters: usize, initial: usize) -> Plain {
        Plain {
            states,
            letters,
            initial,
            accepting: 0,
            rows: vec![0; states * letters],
        }
    }

    pub fn of(states: usize, letters: usize, accepting: &[usize], transitions: &[(usize, usize, usize)]) -> Plain {
        let mut plain = Plain::bare(states, letters, 0);
        for &state in accepting {
            plain.accepting |= 1 << state;
        }
        for &(from, letter, to) in transitions {
            plain.rows[from * letters + letter] |= 1 << to;
        }
        plain
    }

    pub fn from_automaton(automaton: &Automaton) -> Plain {
        let mut plain = Plain::bare(automaton.states(), automaton.letters(), automaton.initial());
        plain.accepting = automaton.accepting();
        for state in 0..plain.states {
            for letter in 0..plain.letters {
                plain.rows[state * plain.letters + letter] = automaton.transitions(letter)[state];
            }
        }
        plain
    }

    /// The records between header and end.
    fn records(&self) -> Vec<Vec<u8>> {
        let mut records = Vec::new();
        for state in (0..self.states).filter(|state| self.accepting >> state & 1 == 1) {
            records.push(vec![0x41, 0x46, state as u8]);
        }
        for (row, targets) in self.rows.iter().enumerate() {
            let (from, letter) = (row / self.letters, row % self.letters);
            for to in (0..self.states).filter(|to| targets >> to & 1 == 1) {
                records.push(vec![0x41, 0x54, from as u8, letter as u8, to as u8]);
            }
        }
        records
    }

    fn written(&self, records: &[Vec<u8>]) -> Vec<u8> {
        let header = [0x41, 0x48, self.states as u8, self.letters as u8, self.initial as u8];
        [&header, records.concat().as_slice(), &[0x41, 0x45]].concat()
    }

    /// The file with its records in order, which is the fixed form.
    pub fn file(&self) -> Vec<u8> {
        self.written(&self.records())
    }

    /// The file with its records in a random order.
    pub fn shuffled_file(&self, random: &mut Random) -> Vec<u8> {
        let mut records = self.records();
        random.shuffle(&mut records);
        self.written(&records)
    }

    pub fn read(&self) -> Automaton {
        second::file::read(&self.file()).expect("drawn automata are in range")
    }

    /// The automaton with the states of the list only, in the order of the list, which holds the initial state.
    fn restricted(&self, kept: &[usize]) -> Plain {
        let place = |state: usize| kept.iter().position(|&other| other == state);
        let initial = place(self.initial).expect("the initial state is kept");
        let moved = |set: u32| {
            (0..kept.len())
                .filter(|&new| set >> kept[new] & 1 == 1)
                .fold(0, |moved, new| moved | 1 << new)
        };
        let mut plain = Plain::bare(kept.len(), self.letters, initial);
        plain.accepting = moved(self.accepting);
        for (new, old) in kept.iter().enumerate() {
            for letter in 0..self.letters {
                plain.rows[new * self.letters + letter] = moved(self.rows[old * self.letters + letter]);
            }
        }
        plain
    }

    /// The same automaton with its states in another order.
    pub fn renumbered(&self, random: &mut Random) -> Plain {
        let mut order: Vec<usize> = (0..self.states).collect();
        random.shuffle(&mut order);
        self.restricted(&order)
    }

    /// With states behind it that no run reaches, up to this number.
    pub fn padded(&self, states: usize) -> Plain {
        let mut plain = self.clone();
        plain.states = states;
        plain.rows.resize(states * self.letters, 0);
        plain
    }

    /// With this many letters that no transition uses before its own.
    pub fn behind_letters(&self, unused: usize) -> Plain {
        let mut plain = Plain::bare(self.states, self.letters + unused, self.initial);
        plain.accepting = self.accepting;
        for (row, targets) in self.rows.iter().enumerate() {
            let (state, letter) = (row / self.letters, row % self.letters);
            plain.rows[state * plain.letters + unused + letter] = *targets;
        }
        plain
    }

    /// Without its dead states. If the initial state is dead it is first made accepting, with a loop.
    pub fn trimmed(&self) -> Plain {
        let mut plain = self.clone();
        let mut dead = dead_states(&plain.read());
        if dead >> plain.initial & 1 == 1 {
            plain.accepting |= 1 << plain.initial;
            plain.rows[plain.initial * plain.letters] |= 1 << plain.initial;
            dead = dead_states(&plain.read());
        }
        let kept: Vec<usize> = (0..plain.states).filter(|state| dead >> state & 1 == 0).collect();
        plain.restricted(&kept)
    }

    /// Without one state, if there is another one than the initial state.
    pub fn without_a_state(&self, random: &mut Random) -> Plain {
        if self.states == 1 {
            return self.clone();
        }
        let left = (self.initial + 1 + random.below(self.states - 1)) % self.states;
        let kept: Vec<usize> = (0..self.states).filter(|&state| state != left).collect();
        self.restricted(&kept)
    }

    /// Without some transition, if there is one.
    pub fn without_a_transition(&self, random: &mut Random) -> Plain {
        let mut plain = self.clone();
        let used: Vec<usize> = (0..self.rows.len()).filter(|&row| self.rows[row] != 0).collect();
        if let Some(row) = used.get(random.below(used.len().max(1))) {
            let targets: Vec<usize> = (0..self.states).filter(|to| self.rows[*row] >> to & 1 == 1).collect();
            plain.rows[*row] &= !(1 << random.pick(&targets));
        }
        plain
    }

    /// With one or two small changes.
    pub fn nearly(&self, random: &mut Random) -> Plain {
        let mut plain = self.clone();
        for _ in 0..random.between(1, 2) {
            match random.below(12) {
                0..=4 => {
                    let row = random.below(plain.rows.len());
                    plain.rows[row] ^= 1 << random.below(plain.states);
                }
                5..=6 => plain.accepting ^= 1 << random.below(plain.states),
                7..=8 => plain = plain.without_a_transition(random),
                9 => plain = plain.without_a_state(random),
                10 => plain = plain.renumbered(random),
                _ => plain.initial = random.below(plain.states),
            }
        }
        plain
    }

    /// A larger automaton with the same runs up to the names of states: a state is doubled, or an unreachable one is added.
    pub fn grown(&self, random: &mut Random) -> Plain {
        if self.states == MAX_STATES {
            return self.clone();
        }
        let mut plain = self.clone();
        let new = plain.states;
        plain.states += 1;
        if random.chance(1, 6) {
            for _ in 0..plain.letters {
                plain
                    .rows
                    .push((random.bits() as u32) & ((1_u64 << plain.states) - 1) as u32);
            }
            plain.accepting |= u32::from(random.chance(1, 2)) << new;
            return plain;
        }
        let old = random.below(new);
        plain.accepting |= (plain.accepting >> old & 1) << new;
        plain
            .rows
            .extend_from_within(old * plain.letters..(old + 1) * plain.letters);
        for row in plain.rows.iter_mut().filter(|row| **row >> old & 1 == 1) {
            match random.below(3) {
                0 => {}
                1 => *row |= 1 << new,
                _ => *row = *row & !(1 << old) | 1 << new,
            }
        }
        plain
    }

    fn drawn_in_shape(random: &mut Random, states: usize, letters: usize, shape: Shape) -> Plain {
        let mut plain = Plain::bare(states, letters, 0);
        if random.chance(1, 3) {
            plain.initial = random.below(states);
        }
        let part = random.between(1, 3);
        for state in 0..states {
            plain.accepting |= u32::from(random.chance(part, 4)) << state;
        }
        let degree = random.between(1, 3);
        let gaps = random.below(3);
        for row in &mut plain.rows {
            match shape {
                Shape::Sparse => {
                    if random.chance(2, 3) {
                        *row |= 1 << random.below(states);
                    }
                    if random.chance(1, 5) {
                        *row |= 1 << random.below(states);
                    }
                }
                Shape::Random => {
                    for to in 0..states {
                        *row |= u32::from(random.chance(degree, states)) << to;
                    }
                }
                Shape::Dense => {
                    for to in 0..states {
                        *row |= u32::from(random.chance(1 + degree, 5)) << to;
                    }
                }
                Shape::Deterministic => {
                    if !random.chance(gaps, 10) {
                        *row |= 1 << random.below(states);
                    }
                }
            }
        }
        plain
    }

    pub fn drawn(random: &mut Random, states: usize, letters: usize) -> Plain {
        let shape = match random.below(10) {
            0..=2 => Shape::Sparse,
            3..=5 => Shape::Random,
            6 => Shape::Dense,
            _ => Shape::Deterministic,
        };
        Plain::drawn_in_shape(random, states, letters, shape)
    }
}

/// A number of states: mostly 2 to 6, seldom up to 32.
pub fn draw_states(random: &mut Random) -> usize {
    match random.below(200) {
        0..=9 => 1,
        10..=169 => random.between(2, 6),
        170..=193 => random.between(7, 12),
        194..=197 => random.between(13, MAX_STATES),
        _ => MAX_STATES,
    }
}

/// A number of letters: mostly 1 to 3, seldom up to 16.
pub fn draw_letters(random: &mut Random) -> usize {
    match random.below(40) {
        0..=29 => random.between(1, 3),
        30..=37 => random.between(4, 7),
        38 => random.between(8, MAX_LETTERS),
        _ => MAX_LETTERS,
    }
}

/// F, G, H and J of the document.
pub fn worked() -> [(&'static str, Plain); 4] {
    let f = [
        (0, 0, 2),
        (0, 1, 1),
        (1, 0, 3),
        (1, 1, 1),
        (2, 0, 2),
        (2, 1, 3),
        (3, 0, 3),
        (3, 1, 3),
    ];
    let g = [
        (0, 0, 0),
        (0, 0, 2),
        (0, 1, 0),
        (0, 1, 1),
        (1, 0, 1),
        (1, 0, 2),
        (2, 1, 1),
        (2, 1, 2),
    ];
    [
        ("F", Plain::of(4, 2, &[3], &f)),
        ("G", Plain::of(3, 2, &[1, 2], &g)),
        ("H", everything(1)),
        ("J", Plain::of(2, 1, &[1], &[(0, 0, 1), (1, 0, 1)])),
    ]
}

/// One state that accepts and loops on every letter.
pub fn everything(letters: usize) -> Plain {
    let mut plain = Plain::bare(1, letters, 0);
    plain.accepting = 1;
    plain.rows.fill(1);
    plain
}

/// All states accept, and there is every transition.
pub fn full(states: usize, letters: usize) -> Plain {
    let mut plain = Plain::bare(states, letters, 0);
    let all = u32::MAX >> (MAX_STATES - states);
    plain.accepting = all;
    plain.rows.fill(all);
    plain
}

/// A ring on every letter; only the last state accepts.
pub fn ring(states: usize, letters: usize) -> Plain {
    let mut plain = Plain::bare(states, letters, 0);
    plain.accepting = 1 << (states - 1);
    for state in 0..states {
        for letter in 0..letters {
            plain.rows[state * letters + letter] = 1 << ((state + 1) % states);
        }
    }
    plain
}

/// Accepts everything, and remembers in its runs which of the last `length` letters were 1: as a right automaton it has about 2
/// to the power of `length` sets of states.
pub fn window(length: usize) -> Plain {
    let mut transitions = vec![(0, 0, 0), (0, 1, 0), (0, 1, 1), (length, 0, 0), (length, 1, 0)];
    for state in 1..length {
        transitions.extend([(state, 0, state + 1), (state, 1, state + 1)]);
    }
    let all: Vec<usize> = (0..=length).collect();
    Plain::of(length + 1, 2, &all, &transitions)
}

/// How the runs of [`left_rings`] and [`right_rings`] begin, and what their accepting states do on letter 1.
#[derive(Clone, Copy, Debug, PartialEq, Eq)]
pub enum Start {
    /// Outside the right rings, or in the left ring; the accepting states loop.
    Apart,
    /// In the accepting states, which lead into the rings.
    Again,
}

/// A ring of this length on letter 1; from its last state letter 0 leads to an accepting state.
pub fn left_rings(start: Start, ring: usize) -> Plain {
    let accepts = ring;
    let onward = match start {
        Start::Apart => accepts,
        Start::Again => 0,
    };
    let mut transitions = vec![(ring - 1, 0, accepts), (accepts, 0, accepts), (accepts, 1, onward)];
    transitions.extend((0..ring).map(|state| (state, 1, (state + 1) % ring)));
    let mut plain = Plain::of(ring + 1, 2, &[accepts], &transitions);
    if start == Start::Again {
        plain.initial = accepts;
    }
    plain
}

/// Rings of these lengths side by side on letter 1; letter 0 leads from them to an accepting state. If `stays`, one state of each
/// ring lacks letter 0, and then the walk of [`left_rings`] in it at bound 0 gives a word. Where no two lengths have a common
/// divisor, it goes once round all rings: it has as many letters as the product of the lengths, and one more for `Again`.
pub fn right_rings(start: Start, rings: &[usize], stays: bool) -> Plain {
    let accepts = rings.iter().sum();
    let (begins, kept) = match start {
        Start::Apart => (accepts + 1, 2),
        Start::Again => (accepts, 1),
    };
    let mut transitions = vec![(accepts, 0, accepts), (begins, 0, accepts)];
    if start == Start::Apart {
        transitions.push((accepts, 1, accepts));
    }
    let mut first = 0;
    for &ring in rings {
        transitions.push((begins, 1, first));
        transitions.extend((0..ring).map(|place| (first + place, 1, first + (place + 1) % ring)));
        let leaving = (0..ring).filter(|place| !stays || place + kept != ring);
        transitions.extend(leaving.map(|place| (first + place, 0, accepts)));
        first += ring;
    }
    let mut plain = Plain::of(begins + 1, 2, &[accepts], &transitions);
    plain.initial = begins;
    plain
}

/// Spoils a file a little.
pub fn damaged(random: &mut Random, file: &[u8]) -> Vec<u8> {
    let mut bytes = file.to_vec();
    let place = random.below(bytes.len());
    match random.below(10) {
        0 => bytes[place] = random.byte(),
        1 => bytes[place] ^= 1 << random.below(8),
        2 => bytes.truncate(place),
        3 => {
            bytes.remove(place);
        }
        4 => bytes.insert(place, random.byte()),
        5 => bytes.push(random.pick(&[0x41, 0x45, 0x00, 0xFF])),
        6 => bytes[random.below(3) + 2] = random.pick(&[0, 1, 2, 3, 16, 17, 32, 33, 255]),
        7 => {
            bytes.truncate(bytes.len() - 2);
            let starts: Vec<usize> = (5..bytes.len()).filter(|&start| bytes[start] == 0x41).collect();
            if let Some(&start) = starts.get(random.below(starts.len().max(1))) {
                let length = if bytes.get(start + 1) == Some(&0x46) { 3 } else { 5 };
                let record = bytes[start..(start + length).min(bytes.len())].to_vec();
                bytes.extend(record);
            }
            bytes.extend([0x41, 0x45]);
        }
        8 => {
            bytes.truncate(bytes.len() - 2);
            let field = random.pick(&[0, 1, 15, 16, 31, 32, 255]);
            bytes.extend([
                0x41,
                0x54,
                random.below(3) as u8,
                field,
                random.below(3) as u8,
                0x41,
                0x45,
            ]);
        }
        _ => bytes = (0..random.below(40)).map(|_| random.byte()).collect(),
    }
    bytes
}
