//! The walk: the vertices of two automata at a bound, in the order of their discovery.
//!
//! A vertex is a left state and a counter for each of 32 right-hand states. Counters are at most 15 (bound 14), so they are the
//! hexadecimal digits of a `u128`, state 0 lowest. A step first takes the largest counter of each state's predecessors. It does
//! so by levels: the targets of the states with the highest counter get that counter, then the targets of the next lower one
//! that have none yet, and so on. This does not depend on the left target, except that an accepting one lowers the counters of
//! states that do not accept. So each letter has two successor counters at most, whatever the number of left targets.

use crate::automaton::{contains, image, members, Automaton, Relation, StateSet};
use crate::refusal::Refusal;

/// Highest bound.
pub const MAX_BOUND: u8 = 14;

/// Bytes of a slot.
pub const SLOT_BYTES: usize = 40;

/// Most slots that a walk uses, whatever the length of the work buffer.
pub const MAX_SLOTS: usize = 4096;

/// How a walk ends, if neither buffer is too short.
#[derive(Clone, Copy, Debug, PartialEq, Eq)]
pub enum Outcome {
    /// There is no final vertex.
    Contained {
        /// Length of the discovery list.
        count: usize,
    },
    /// There is a final vertex; its word stands at the front of the word buffer.
    Differs {
        /// The final vertex's place in the discovery list, counted from 0.
        count: usize,
        /// Length of the word.
        length: usize,
    },
}

/// The bound as a counter's type, or refusal 8.
pub fn check_bound(bound: u64) -> Result<u8, Refusal> {
    match u8::try_from(bound) {
        Ok(bound) if bound <= MAX_BOUND => Ok(bound),
        _ => Err(Refusal::Bound),
    }
}

/// Number of slots of a work buffer of this length.
pub fn slots(work_length: usize) -> usize {
    (work_length / SLOT_BYTES).min(MAX_SLOTS)
}

/// Walks the vertices of the two automata, writes the slots and, where there is a final vertex, its word. The refusals are 10
/// and 11.
///
/// # Panics
/// If the bound is above 14.
pub fn walk(
    left: &Automaton,
    right: &Automaton,
    bound: u8,
    work: &mut [u8],
    word: &mut [u8],
) -> Result<Outcome, Refusal> {
    assert!(bound <= MAX_BOUND);
    let mut discovery = Discovery::new(work);
    let end = discovery.run(left, right, bound);
    let count = discovery.list.len();
    match end {
        End::Exhausted => Ok(Outcome::Contained { count }),
        End::Full => Err(Refusal::Slots { count }),
        End::Final(last) => {
            let length = read_back(work, last, word)?;
            Ok(Outcome::Differs { count, length })
        }
    }
}

/// A left state and the counters of the right-hand states.
#[derive(Clone, Copy, PartialEq, Eq)]
struct Vertex {
    left: u8,
    counters: Counters,
}

/// 32 counters, four bits each, state 0 lowest.
type Counters = u128;

/// One for each member of the set, at the place of its counter.
fn ones(set: StateSet) -> Counters {
    let low = spread(set & 0xFFFF);
    let high = spread(set >> 16);
    Counters::from(high) << 64 | Counters::from(low)
}

/// Moves bit `i` of a 16-bit number to bit `4 * i`.
fn spread(bits: u32) -> u64 {
    let mut bits = u64::from(bits);
    bits = (bits | bits << 24) & 0x0000_00FF_0000_00FF;
    bits = (bits | bits << 12) & 0x000F_000F_000F_000F;
    bits = (bits | bits << 6) & 0x0303_0303_0303_0303;
    (bits | bits << 3) & 0x1111_1111_1111_1111
}

/// The first `states` states by their counters: `levels[c]` holds those whose counter is `c`.
fn levels(counters: Counters, states: usize) -> [StateSet; 16] {
    let mut levels = [0; 16];
    let pairs = states.div_ceil(2);
    for (pair, digits) in counters.to_le_bytes()[..pairs].iter().enumerate() {
        levels[usize::from(digits & 15)] |= 1 << (2 * pair);
        levels[usize::from(digits >> 4)] |= 2 << (2 * pair);
    }
    levels
}

/// The counters after a step on one letter.
struct Stepped {
    /// To a left target that accepts.
    accepting: Counters,
    /// To a left target that does not accept.
    plain: Counters,
}

/// Steps counters on a letter. `transitions` are the right-hand transitions on that letter.
fn step(levels: &[StateSet; 16], transitions: &Relation, right_accepting: StateSet, bound: u8) -> Stepped {
    let top = usize::from(bound) + 1;
    let mut reached = 0;
    let mut plain = 0;
    for counter in (1..=top).rev().filter(|&counter| levels[counter] != 0) {
        let targets = image(transitions, levels[counter]) & !reached;
        reached |= targets;
        plain += ones(targets & !right_accepting) * counter as Counters;
    }
    let raised = ones(reached & right_accepting) * top as Counters;
    Stepped {
        accepting: raised + plain - ones(reached & !right_accepting),
        plain: raised + plain,
    }
}

/// The initial vertex.
fn initial(left: &Automaton, right: &Automaton, bound: u8) -> Vertex {
    let behind = contains(left.accepting(), left.initial()) && !contains(right.accepting(), right.initial());
    let counter = if behind { bound } else { bound + 1 };
    Vertex {
        left: left.initial() as u8,
        counters: Counters::from(counter) << (4 * right.initial()),
    }
}

/// How a vertex is found: the letter and the parent's slot number. The initial vertex has neither.
type Origin = Option<(u8, u16)>;

/// Why the discovery list ends.
enum End {
    /// Every successor is listed.
    Exhausted,
    /// The next vertex is final; it is found so.
    Final(Origin),
    /// The next vertex is not final and there is no slot for it.
    Full,
}

/// The discovery list, without its final vertex, and the slots that hold it.
struct Discovery<'a> {
    work: &'a mut [u8],
    slots: usize,
    list: Vec<Vertex>,
    /// A hash table with open addressing: the place of a listed vertex plus 1, or 0. At least half of it stays 0.
    index: Vec<u16>,
}

impl<'a> Discovery<'a> {
    /// An empty list.
    fn new(work: &'a mut [u8]) -> Discovery<'a> {
        let slots = slots(work.len());
        Discovery {
            work,
            slots,
            list: Vec::new(),
            index: vec![0; (2 * slots).next_power_of_two()],
        }
    }

    /// Appends vertices until the list ends.
    fn run(&mut self, left: &Automaton, right: &Automaton, bound: u8) -> End {
        if let Err(end) = self.append(initial(left, right, bound), None) {
            return end;
        }
        let mut parent = 0;
        while parent < self.list.len() {
            if let Err(end) = self.append_successors(left, right, bound, parent) {
                return end;
            }
            parent += 1;
        }
        End::Exhausted
    }

    /// Appends the successors of a listed vertex, letters upwards and left targets upwards.
    fn append_successors(&mut self, left: &Automaton, right: &Automaton, bound: u8, parent: usize) -> Result<(), End> {
        let vertex = self.list[parent];
        let levels = levels(vertex.counters, right.states());
        for letter in 0..left.letters() {
            let targets = left.transitions(letter)[usize::from(vertex.left)];
            if targets == 0 {
                continue;
            }
            let transitions = right.transitions(letter);
            let stepped = step(&levels, transitions, right.accepting(), bound);
            for target in members(targets) {
                let counters = match contains(left.accepting(), target) {
                    true => stepped.accepting,
                    false => stepped.plain,
                };
                let successor = Vertex {
                    left: target as u8,
                    counters,
                };
                self.append(successor, Some((letter as u8, parent as u16)))?;
            }
        }
        Ok(())
    }

    /// Appends the vertex and writes its slot, unless it is listed. A final vertex ends the list, a missing slot too.
    fn append(&mut self, vertex: Vertex, origin: Origin) -> Result<(), End> {
        if vertex.counters == 0 {
            return Err(End::Final(origin));
        }
        let Some(entry) = self.free_entry(vertex) else {
            return Ok(());
        };
        let place = self.list.len();
        if place == self.slots {
            return Err(End::Full);
        }
        write_slot(&mut self.work[place * SLOT_BYTES..][..SLOT_BYTES], vertex, origin);
        self.list.push(vertex);
        self.index[entry] = place as u16 + 1;
        Ok(())
    }

    /// The entry of the index that is to hold the vertex, unless it is listed.
    fn free_entry(&self, vertex: Vertex) -> Option<usize> {
        let last = self.index.len() - 1;
        let mut entry = hash(vertex) & last;
        while let Some(place) = self.index[entry].checked_sub(1) {
            if self.list[usize::from(place)] == vertex {
                return None;
            }
            entry = (entry + 1) & last;
        }
        Some(entry)
    }
}

/// A fast hash: the two halves of the counters, with the left state in one of them, are mixed by a wide multiplication.
fn hash(vertex: Vertex) -> usize {
    let left = (u64::from(vertex.left) + 1).wrapping_mul(0x9E37_79B9_7F4A_7C15);
    let low = vertex.counters as u64 ^ left;
    let high = (vertex.counters >> 64) as u64 ^ 0x243F_6A88_85A3_08D3;
    let mixed = u128::from(low) * u128::from(high);
    (mixed as u64 ^ (mixed >> 64) as u64) as usize
}

/// Writes a slot's 40 bytes: the left state, 32 counters, the letter, two bytes for the parent, four zeros. Letter and parent are FF
/// without an origin.
fn write_slot(slot: &mut [u8], vertex: Vertex, origin: Origin) {
    slot[0] = vertex.left;
    let pairs = slot[1..33].chunks_exact_mut(2);
    for (pair, digits) in pairs.zip(vertex.counters.to_le_bytes()) {
        pair[0] = digits & 15;
        pair[1] = digits >> 4;
    }
    let (letter, parent) = origin.unwrap_or((0xFF, 0xFFFF));
    slot[33] = letter;
    slot[34..36].copy_from_slice(&parent.to_le_bytes());
    slot[36..].fill(0);
}

/// The origin that stands in a slot.
fn origin(work: &[u8], place: u16) -> Origin {
    if place == 0 {
        return None;
    }
    let slot = &work[usize::from(place) * SLOT_BYTES..][..SLOT_BYTES];
    Some((slot[33], u16::from_le_bytes([slot[34], slot[35]])))
}

/// Writes the word that leads to the final vertex to the front of the word buffer, first letter first, and gives its length.
/// The buffer is unchanged with refusal 11.
fn read_back(work: &[u8], last: Origin, word: &mut [u8]) -> Result<usize, Refusal> {
    let backwards = || std::iter::successors(last, |&(_, parent)| origin(work, parent));
    let length = backwards().count();
    let front = word.get_mut(..length).ok_or(Refusal::Word { needed: length })?;
    for (place, (letter, _)) in front.iter_mut().rev().zip(backwards()) {
        *place = letter;
    }
    Ok(length)
}
