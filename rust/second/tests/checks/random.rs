//! Random numbers with a printed seed, and random automata.

use crate::worked::Plain;

/// Xorshift generator.
pub struct Random {
    state: u64,
}

impl Random {
    /// A generator that starts from a seed, which is printed.
    pub fn new(test: &str, seed: u64) -> Random {
        println!("{test}: seed {seed:#x}");
        Random { state: seed }
    }

    pub fn next(&mut self) -> u64 {
        self.state ^= self.state << 13;
        self.state ^= self.state >> 7;
        self.state ^= self.state << 17;
        self.state.wrapping_mul(0x2545_F491_4F6C_DD1D) >> 16
    }

    /// A number below the limit.
    pub fn below(&mut self, limit: usize) -> usize {
        (self.next() % limit as u64) as usize
    }

    /// True in `part` of `whole` cases.
    pub fn chance(&mut self, part: usize, whole: usize) -> bool {
        self.below(whole) < part
    }

    pub fn bytes(&mut self, length: usize) -> Vec<u8> {
        (0..length).map(|_| self.next() as u8).collect()
    }

    pub fn word(&mut self, letters: usize, length: usize) -> Vec<u8> {
        (0..length).map(|_| self.below(letters) as u8).collect()
    }

    /// The automaton's file with its records in any order.
    pub fn shuffled_file(&mut self, automaton: &Plain) -> Vec<u8> {
        let mut records = automaton.records();
        for place in (1..records.len()).rev() {
            records.swap(place, self.below(place + 1));
        }
        automaton.file_of(&records)
    }

    /// An automaton in which a state has `degree` targets on a letter on average.
    pub fn automaton(&mut self, states: usize, letters: usize, degree: usize) -> Plain {
        let initial = self.below(states);
        let accepting = (0..states).filter(|_| self.chance(1, 2)).collect();
        let mut transitions = Vec::new();
        for from in 0..states {
            for letter in 0..letters {
                for to in 0..states {
                    if self.chance(degree, states) {
                        transitions.push((from, letter, to));
                    }
                }
            }
        }
        Plain {
            states,
            letters,
            initial,
            accepting,
            transitions,
        }
    }

    /// An automaton without dead states: what is drawn is drawn again until there are none.
    pub fn live_automaton(&mut self, states: usize, letters: usize, degree: usize) -> Plain {
        loop {
            let automaton = self.automaton(states, letters, degree);
            if crate::definitions::dead(&automaton).is_empty() {
                return automaton;
            }
        }
    }
}
