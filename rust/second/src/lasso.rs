//! Verdict: is a lasso word accepted?
//!
//! The work is linear in the word's length: the stem moves a set of states, letter by letter; the loop is turned into a relation
//! between the states before and after one copy of it, letter by letter from its end.

use crate::automaton::{closure, contains, image, members, singleton, Automaton, Relation, StateSet, MAX_STATES};
use crate::refusal::Refusal;

/// Most letters of a stem, and of a loop, that the verdict takes.
pub const MAX_LASSO: usize = 4096;

/// The verdict on the lasso word of the stem and the loop `cycle`; refusal 15 if it is no lasso word of the automaton within the
/// limits.
pub fn verdict(automaton: &Automaton, stem: &[u8], cycle: &[u8]) -> Result<bool, Refusal> {
    let lengths = stem.len() <= MAX_LASSO && (1..=MAX_LASSO).contains(&cycle.len());
    if !lengths || !has_letters(automaton, stem) || !has_letters(automaton, cycle) {
        return Err(Refusal::Lasso);
    }
    Ok(recurs(automaton, stem, cycle))
}

/// Has the automaton every letter of the word?
fn has_letters(automaton: &Automaton, word: &[u8]) -> bool {
    word.iter().all(|&letter| automaton.has_letter(letter))
}

/// Does the automaton accept the lasso word of the stem and the loop `cycle`? Its lengths have no limit; of an empty loop the answer is
/// no. No run reads a letter outside, so a word with one is not accepted.
pub fn accepts(automaton: &Automaton, stem: &[u8], cycle: &[u8]) -> bool {
    let known = has_letters(automaton, stem) && has_letters(automaton, cycle);
    !cycle.is_empty() && known && recurs(automaton, stem, cycle)
}

/// Does some run on the lasso word, whose letters the automaton has, meet an accepting state again and again?
fn recurs(automaton: &Automaton, stem: &[u8], cycle: &[u8]) -> bool {
    let after_stem = stem.iter().fold(singleton(automaton.initial()), |states, &letter| {
        image(automaton.transitions(letter.into()), states)
    });
    let once = LoopRuns::new(automaton, cycle);
    let onward = closure(once.reached, automaton.states());
    let before_loop = after_stem | image(&onward, after_stem);
    let returns = |start: usize| members(once.met[start]).any(|end| contains(onward[end], start));
    members(before_loop).any(returns)
}

/// The runs on one copy of the loop, by their first and last states.
struct LoopRuns {
    /// There is a run.
    reached: Relation,
    /// There is a run that meets an accepting state, its first and last states included.
    met: Relation,
}

impl LoopRuns {
    /// Both relations are kept side by side in one number for each first state: `reached` low, `met` high.
    fn new(automaton: &Automaton, cycle: &[u8]) -> LoopRuns {
        let accepting = automaton.accepting();
        let states = automaton.states();
        let meet = |state: usize, runs: u64| match contains(accepting, state) {
            true => runs | runs << 32,
            false => runs,
        };
        let mut runs: [u64; MAX_STATES] = std::array::from_fn(|state| meet(state, singleton(state).into()));
        for &letter in cycle.iter().rev() {
            let transitions = automaton.transitions(letter.into());
            let after = runs;
            for state in 0..states {
                let targets = members(transitions[state]);
                let onward = targets.fold(0, |onward, target| onward | after[target]);
                runs[state] = meet(state, onward);
            }
        }
        let row = |shift: u32| move |runs: u64| (runs >> shift) as StateSet;
        LoopRuns {
            reached: runs.map(row(0)),
            met: runs.map(row(32)),
        }
    }
}
