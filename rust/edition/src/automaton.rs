use crate::entry::Entry;
use crate::layout::{self, Record, LETTERS, STATES};
use crate::Refusal;

/// An automaton to look at: what pictures and summaries are made from. Nothing is decided by it.
///
/// ```
/// use edition::Automaton;
///
/// let j = b"AH\x02\x01\x00AF\x01AT\x00\x00\x01AT\x01\x00\x01AE";
/// let automaton = Automaton::from_file(j)?;
/// assert_eq!((automaton.states(), automaton.letters(), automaton.initial()), (2, 1, 0));
/// assert!(automaton.accepts(1) && !automaton.accepts(0));
/// assert_eq!(automaton.transitions().collect::<Vec<_>>(), [(0, 0, 1), (1, 0, 1)]);
/// # Ok::<(), edition::Refusal>(())
/// ```
#[derive(Clone, Debug, PartialEq, Eq)]
pub struct Automaton {
    states: u8,
    letters: u8,
    initial: u8,
    accepting: u32,
    targets: [[u32; LETTERS]; STATES],
}

impl Automaton {
    /// The automaton of a file. Files that are not well formed are refused with 1 to 5, by the archive.
    ///
    /// A file with dead states is no edition, but it can be looked at: [`dead_states`](Automaton::dead_states) says which they are.
    pub fn from_file(file: &[u8]) -> Result<Automaton, Refusal> {
        let mut entry = Entry::fresh();
        match entry.open(file) {
            Ok(()) => Ok(entry
                .held()
                .expect("an entry that was just opened holds its automaton")
                .automaton),
            Err(Refusal::Dead { .. }) => Ok(Automaton::of_records(file)),
            Err(refusal) => Err(refusal),
        }
    }

    /// The automaton of a well-formed file: the archive has read it to its end, so every record is whole and in range.
    fn of_records(file: &[u8]) -> Automaton {
        let mut automaton = Automaton::bare(layout::header(file));
        for record in layout::records(file) {
            match record {
                Record::Accepting(state) => automaton.accepting |= 1 << state,
                Record::Transition(from, letter, to) => {
                    automaton.targets[usize::from(from)][usize::from(letter)] |= 1 << to;
                }
            }
        }
        automaton
    }

    /// The automaton of an open entry's bytes.
    pub(crate) fn of_entry(entry: &[u8; layout::ENTRY_BYTES]) -> Automaton {
        let targets = |from| std::array::from_fn(|letter| layout::entry_targets(entry, from, letter));
        Automaton {
            accepting: layout::entry_accepting(entry),
            targets: std::array::from_fn(targets),
            ..Automaton::bare(layout::entry_header(entry))
        }
    }

    /// An automaton without accepting states and transitions.
    fn bare([states, letters, initial]: [u8; 3]) -> Automaton {
        Automaton {
            states,
            letters,
            initial,
            accepting: 0,
            targets: [[0; LETTERS]; STATES],
        }
    }

    /// The number of states.
    pub fn states(&self) -> u8 {
        self.states
    }

    /// The number of letters.
    pub fn letters(&self) -> u8 {
        self.letters
    }

    /// The initial state.
    pub fn initial(&self) -> u8 {
        self.initial
    }

    /// Whether the state is accepting. A state that the automaton lacks is not.
    pub fn accepts(&self, state: u8) -> bool {
        state < self.states && has(self.accepting, state)
    }

    /// The accepting states, upwards.
    pub fn accepting(&self) -> impl Iterator<Item = u8> + '_ {
        (0..self.states).filter(|&state| self.accepts(state))
    }

    /// The targets of a state on a letter, upwards. A state or a letter that the automaton lacks has none.
    pub fn targets(&self, from: u8, letter: u8) -> impl Iterator<Item = u8> + use<> {
        let set = match from < self.states && letter < self.letters {
            true => self.targets[usize::from(from)][usize::from(letter)],
            false => 0,
        };
        (0..self.states).filter(move |&to| has(set, to))
    }

    /// The transitions as (from, letter, to), in this order.
    pub fn transitions(&self) -> impl Iterator<Item = (u8, u8, u8)> + '_ {
        let sources = (0..self.states).flat_map(|from| (0..self.letters).map(move |letter| (from, letter)));
        sources.flat_map(|(from, letter)| self.targets(from, letter).map(move |to| (from, letter, to)))
    }

    /// The dead states, upwards, for display: the archive refuses an automaton that has any, but does not say which.
    ///
    /// Dead is a state that a run from the initial state reaches and from which no run reaches an accepting state on a cycle.
    pub fn dead_states(&self) -> Vec<u8> {
        let after: Vec<u32> = (0..self.states)
            .map(|state| self.reached(self.successors(state)))
            .collect();
        let reached = self.reached(1 << self.initial);
        let looping = self.chosen(|state| self.accepts(state) && has(after[usize::from(state)], state));
        let dead = self.chosen(|state| has(reached, state) && (after[usize::from(state)] | 1 << state) & looping == 0);
        (0..self.states).filter(|&state| has(dead, state)).collect()
    }

    fn chosen(&self, wanted: impl Fn(u8) -> bool) -> u32 {
        (0..self.states)
            .filter(|&state| wanted(state))
            .fold(0, |set, state| set | 1 << state)
    }

    fn successors(&self, state: u8) -> u32 {
        self.targets[usize::from(state)]
            .iter()
            .fold(0, |set, targets| set | targets)
    }

    /// The states that runs from the set reach, in zero or more steps.
    fn reached(&self, mut set: u32) -> u32 {
        for _ in 0..self.states {
            set = (0..self.states)
                .filter(|&state| has(set, state))
                .fold(set, |all, state| all | self.successors(state));
        }
        set
    }
}

/// Whether the set has the state, which is below 32.
fn has(set: u32, state: u8) -> bool {
    set >> state & 1 == 1
}
