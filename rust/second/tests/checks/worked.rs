//! Automata as plain lists, the document's worked automata F, G, H and J, and their files.

use second::automaton::Automaton;

/// An automaton as a reader would write it down.
#[derive(Clone, Debug, PartialEq, Eq)]
pub struct Plain {
    pub states: usize,
    pub letters: usize,
    pub initial: usize,
    pub accepting: Vec<usize>,
    pub transitions: Vec<(usize, usize, usize)>,
}

impl Plain {
    pub fn accepts_at(&self, state: usize) -> bool {
        self.accepting.contains(&state)
    }

    /// Targets, lowest first.
    pub fn targets(&self, state: usize, letter: usize) -> Vec<usize> {
        let there = |to: &usize| self.transitions.contains(&(state, letter, *to));
        (0..self.states).filter(there).collect()
    }

    /// The records between header and end, in the order of the lists.
    pub fn records(&self) -> Vec<Vec<u8>> {
        let accepting = self.accepting.iter().map(|&q| vec![0x41, 0x46, q as u8]);
        let transitions = self.transitions.iter();
        let transitions = transitions.map(|&(q, a, r)| vec![0x41, 0x54, q as u8, a as u8, r as u8]);
        accepting.chain(transitions).collect()
    }

    /// The file with these records.
    pub fn file_of(&self, records: &[Vec<u8>]) -> Vec<u8> {
        let header = [self.states, self.letters, self.initial].map(|value| value as u8);
        [&[0x41, 0x48], header.as_slice(), &records.concat(), &[0x41, 0x45]].concat()
    }

    pub fn file(&self) -> Vec<u8> {
        self.file_of(&self.records())
    }

    /// The checker's value for this automaton.
    pub fn read(&self) -> Automaton {
        second::file::read(&self.file()).expect("the file is well formed")
    }
}

/// An automaton that begins in state 0; the targets of each state are listed for letter 0, then for letter 1.
fn begun<const N: usize>(letters: usize, accepting: &[usize], targets: [&[&[usize]]; N]) -> Plain {
    let mut transitions = Vec::new();
    for (from, rows) in targets.iter().enumerate() {
        for (letter, row) in rows.iter().enumerate() {
            transitions.extend(row.iter().map(|&to| (from, letter, to)));
        }
    }
    Plain {
        states: N,
        letters,
        initial: 0,
        accepting: accepting.to_vec(),
        transitions,
    }
}

pub fn f() -> Plain {
    begun(2, &[3], [&[&[2], &[1]], &[&[3], &[1]], &[&[2], &[3]], &[&[3], &[3]]])
}

pub fn g() -> Plain {
    begun(2, &[1, 2], [&[&[0, 2], &[0, 1]], &[&[1, 2], &[]], &[&[], &[1, 2]]])
}

pub fn h() -> Plain {
    begun(1, &[0], [&[&[0]]])
}

pub fn j() -> Plain {
    begun(1, &[1], [&[&[1]], &[&[1]]])
}

/// One state that accepts and loops on every letter.
pub fn everything(letters: usize) -> Plain {
    begun(letters, &[0], [&vec![[0].as_slice(); letters]])
}

/// Accepts everything, and remembers in its runs which of the last `window` letters were 1: as a right automaton it has 2 to the
/// power of `window` sets of states.
pub fn window(window: usize) -> Plain {
    let mut transitions = vec![(0, 0, 0), (0, 1, 0), (0, 1, 1), (window, 0, 0), (window, 1, 0)];
    for state in 1..window {
        transitions.extend([(state, 0, state + 1), (state, 1, state + 1)]);
    }
    Plain {
        states: window + 1,
        letters: 2,
        initial: 0,
        accepting: (0..=window).collect(),
        transitions,
    }
}

/// A ring of `states` states on one of two letters; only the last state accepts.
pub fn ring(states: usize) -> Plain {
    Plain {
        states,
        letters: 2,
        initial: 0,
        accepting: vec![states - 1],
        transitions: (0..states).map(|q| (q, 0, (q + 1) % states)).collect(),
    }
}

/// All states accept, and there is every transition; the run begins in the last state.
pub fn full(states: usize, letters: usize) -> Plain {
    let mut transitions = Vec::new();
    for from in 0..states {
        for letter in 0..letters {
            transitions.extend((0..states).map(|to| (from, letter, to)));
        }
    }
    Plain {
        states,
        letters,
        initial: states - 1,
        accepting: (0..states).collect(),
        transitions,
    }
}

/// Never accepts on letter 0; letter 1 leads to an accepting loop.
pub fn idle() -> Plain {
    begun(2, &[1], [&[&[0], &[1]], &[&[1]]])
}

/// Every automaton with this many states and letters; 18 possible transitions at most.
pub fn all(states: usize, letters: usize) -> impl Iterator<Item = Plain> {
    let places = full(states, letters).transitions;
    assert!(places.len() <= 18);
    let chosen = 1_u32 << places.len();
    (0..states).flat_map(move |initial| {
        let places = places.clone();
        (0..1_u32 << states).flat_map(move |accepting| {
            let places = places.clone();
            (0..chosen).map(move |transitions| Plain {
                states,
                letters,
                initial,
                accepting: (0..states).filter(|q| accepting >> q & 1 == 1).collect(),
                transitions: (0..places.len())
                    .filter(|place| transitions >> place & 1 == 1)
                    .map(|place| places[place])
                    .collect(),
            })
        })
    })
}
