//! Automata and sets of states.

/// Most states an automaton has.
pub const MAX_STATES: usize = 32;

/// Most letters an automaton has.
pub const MAX_LETTERS: usize = 16;

/// A set of states: bit `q` is set if state `q` is a member.
pub type StateSet = u32;

/// A relation between states: row `q` holds the states that `q` is related to.
pub type Relation = [StateSet; MAX_STATES];

/// The set with one member.
#[inline]
pub fn singleton(state: usize) -> StateSet {
    1 << state
}

/// Is the state a member of the set?
#[inline]
pub fn contains(set: StateSet, state: usize) -> bool {
    set >> state & 1 == 1
}

/// The members of the set, lowest first.
#[inline]
pub fn members(set: StateSet) -> Members {
    Members { rest: set }
}

/// The number of a byte's lowest set bit; 8 for zero.
pub fn least_member(byte: u8) -> u8 {
    byte.trailing_zeros() as u8
}

/// Iterator over the members of a set, lowest first.
#[derive(Clone, Debug)]
pub struct Members {
    rest: StateSet,
}

impl Iterator for Members {
    type Item = usize;

    #[inline]
    fn next(&mut self) -> Option<usize> {
        if self.rest == 0 {
            return None;
        }
        let least = self.rest.trailing_zeros() as usize;
        self.rest &= self.rest - 1;
        Some(least)
    }
}

/// The states that some member of the set is related to.
#[inline]
pub fn image(relation: &Relation, set: StateSet) -> StateSet {
    members(set).fold(0, |image, state| image | relation[state])
}

/// The transitive closure of a relation on the first `states` states: `q` is related to what it reaches in one or more steps.
pub fn closure(mut relation: Relation, states: usize) -> Relation {
    let rows = &mut relation[..states];
    for middle in 0..states {
        let onward = rows[middle];
        for row in rows.iter_mut() {
            if contains(*row, middle) {
                *row |= onward;
            }
        }
    }
    relation
}

/// A Büchi automaton with states `0..states`, letters `0..letters` and no state or letter outside them in use.
#[derive(Clone, Debug, PartialEq, Eq)]
pub struct Automaton {
    states: u8,
    letters: u8,
    initial: u8,
    accepting: StateSet,
    /// One relation for each letter.
    transitions: [Relation; MAX_LETTERS],
}

impl Automaton {
    /// An automaton without accepting states and transitions, if the three values are in a header's range.
    pub fn new(states: u8, letters: u8, initial: u8) -> Option<Automaton> {
        let in_range =
            (1..=MAX_STATES as u8).contains(&states) && (1..=MAX_LETTERS as u8).contains(&letters) && initial < states;
        in_range.then_some(Automaton {
            states,
            letters,
            initial,
            accepting: 0,
            transitions: [[0; MAX_STATES]; MAX_LETTERS],
        })
    }

    /// Number of states.
    pub fn states(&self) -> usize {
        self.states.into()
    }

    /// Number of letters.
    pub fn letters(&self) -> usize {
        self.letters.into()
    }

    /// The initial state.
    pub fn initial(&self) -> usize {
        self.initial.into()
    }

    /// The accepting states.
    pub fn accepting(&self) -> StateSet {
        self.accepting
    }

    /// All states.
    pub fn all_states(&self) -> StateSet {
        StateSet::MAX >> (MAX_STATES - self.states())
    }

    /// The transitions on a letter below 16, from each state to its targets.
    #[inline]
    pub fn transitions(&self, letter: usize) -> &Relation {
        &self.transitions[letter]
    }

    /// The transitions on any letter, from each state to its targets.
    pub fn edges(&self) -> Relation {
        let mut edges = [0; MAX_STATES];
        for relation in &self.transitions[..self.letters()] {
            for (edge, row) in edges.iter_mut().zip(relation) {
                *edge |= row;
            }
        }
        edges
    }

    /// Number of transitions.
    pub fn transition_count(&self) -> u32 {
        let relations = self.transitions[..self.letters()].iter();
        let rows = relations.flat_map(|relation| &relation[..self.states()]);
        rows.map(|row| row.count_ones()).sum()
    }

    /// Is the number a state?
    pub fn has_state(&self, state: u8) -> bool {
        state < self.states
    }

    /// Is the number a letter?
    pub fn has_letter(&self, letter: u8) -> bool {
        letter < self.letters
    }

    /// Makes a state accepting; false if it was already.
    ///
    /// # Panics
    /// If the automaton has no such state.
    pub fn add_accepting(&mut self, state: u8) -> bool {
        assert!(self.has_state(state));
        let before = self.accepting;
        self.accepting |= singleton(state.into());
        self.accepting != before
    }

    /// Adds a transition; false if it was there already.
    ///
    /// # Panics
    /// If the automaton has no such state or letter.
    pub fn add_transition(&mut self, from: u8, letter: u8, to: u8) -> bool {
        assert!(self.has_state(from) && self.has_letter(letter) && self.has_state(to));
        let row = &mut self.transitions[usize::from(letter)][usize::from(from)];
        let before = *row;
        *row |= singleton(to.into());
        *row != before
    }

    /// Makes the states of a set accepting, and no others.
    ///
    /// # Panics
    /// If the automaton lacks a state of the set.
    pub fn set_accepting(&mut self, set: StateSet) {
        assert!(set & !self.all_states() == 0);
        self.accepting = set;
    }

    /// Makes the states of a set the targets of a state on a letter, and no others.
    ///
    /// # Panics
    /// If the automaton lacks the state, the letter or a state of the set.
    pub fn set_targets(&mut self, from: u8, letter: u8, set: StateSet) {
        assert!(self.has_state(from) && self.has_letter(letter) && set & !self.all_states() == 0);
        self.transitions[usize::from(letter)][usize::from(from)] = set;
    }
}
