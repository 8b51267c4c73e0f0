//! Dead ends: reachable states from which no accepting state on a cycle is reached.

use crate::automaton::{closure, contains, members, singleton, Automaton, StateSet};
use crate::refusal::Refusal;

/// The dead states. An unreachable state is never dead.
pub fn dead_states(automaton: &Automaton) -> StateSet {
    let onward = closure(automaton.edges(), automaton.states());
    let reached = |state: usize| singleton(state) | onward[state];
    let goals = members(automaton.accepting())
        .filter(|&state| contains(onward[state], state))
        .fold(0, |goals, state| goals | singleton(state));
    members(reached(automaton.initial()))
        .filter(|&state| reached(state) & goals == 0)
        .fold(0, |dead, state| dead | singleton(state))
}

/// Refusal 6 if the automaton has a dead state.
pub fn check(automaton: &Automaton) -> Result<(), Refusal> {
    match dead_states(automaton) {
        0 => Ok(()),
        _ => Err(Refusal::Dead),
    }
}
