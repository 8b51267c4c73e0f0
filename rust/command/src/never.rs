//! Never claims in the language of the model checker SPIN.

use std::collections::BTreeMap;
use std::fmt::Write;

use edition::Automaton;

use crate::answer::Failure;

/// The never claim of an automaton whose letters are the valuations of some propositions: p0 holds in letter a if the lowest bit of a
/// is 1, p1 goes by the next bit, and so on. Any other number of letters has none.
pub fn claim(automaton: &Automaton) -> Result<String, Failure> {
    let letters = automaton.letters();
    if !letters.is_power_of_two() {
        return Err(Failure::File(format!(
            "no never claim: {letters} letters are not the valuations of some propositions, which number 1, 2, 4, 8 or 16"
        )));
    }
    let states = automaton.states();
    let mut text = format!("never {{ /* {states} states, {letters} letters */\n");
    // The claim begins in the state that is written first.
    let others = (0..states).filter(|&state| state != automaton.initial());
    for state in [automaton.initial()].into_iter().chain(others) {
        text += &format!("{}:\n", label(automaton, state));
        steps(&mut text, automaton, state);
    }
    Ok(text + "}\n")
}

/// A state's label. SPIN takes a state as accepting if its label begins with `accept`.
fn label(automaton: &Automaton, state: u8) -> String {
    let kind = if automaton.accepts(state) { "accept" } else { "T0" };
    match state == automaton.initial() {
        true => format!("{kind}_init"),
        false => format!("{kind}_S{state}"),
    }
}

/// The steps of a state, one for each target. A state without steps waits for ever: a claim that ran on would end, and so accept.
fn steps(text: &mut String, automaton: &Automaton, state: u8) {
    let mut letters: BTreeMap<u8, Vec<u8>> = BTreeMap::new();
    for letter in 0..automaton.letters() {
        for target in automaton.targets(state, letter) {
            letters.entry(target).or_default().push(letter);
        }
    }
    if letters.is_empty() {
        text.push_str("\tfalse;\n");
        return;
    }
    text.push_str("\tif\n");
    for (target, letters) in letters {
        let guard = guard(automaton.letters(), &letters);
        // Writing to a string does not fail.
        let _ = writeln!(text, "\t:: ({guard}) -> goto {}", label(automaton, target));
    }
    text.push_str("\tfi;\n");
}

/// What holds in these letters, of so many, and in no other.
fn guard(all: u8, letters: &[u8]) -> String {
    if letters.len() == usize::from(all) {
        return "1".into();
    }
    let valuations: Vec<String> = letters.iter().map(|&letter| valuation(all, letter)).collect();
    match &valuations[..] {
        [one] => one.clone(),
        several => format!("({})", several.join(") || (")),
    }
}

fn valuation(all: u8, letter: u8) -> String {
    let propositions = (0..all.trailing_zeros()).map(|bit| match letter >> bit & 1 {
        1 => format!("p{bit}"),
        _ => format!("!p{bit}"),
    });
    propositions.collect::<Vec<_>>().join(" && ")
}
