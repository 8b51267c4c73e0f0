//! Automata as Hanoi texts of the subset that the kernel reads.

use std::fmt::Write;

use edition::Automaton;

use crate::answer::Failure;

/// The text of an automaton whose letters are the valuations of some propositions, p0 and so on; any other number of letters has none. It has
/// a line for each state, and below it one for each target.
pub fn text(automaton: &Automaton) -> Result<String, Failure> {
    let letters = automaton.letters();
    if !letters.is_power_of_two() {
        return Err(Failure::File(format!(
            "no Hanoi text: {letters} letters are not the valuations of some propositions, which number 1, 2, 4, 8 or 16"
        )));
    }
    let propositions = letters.trailing_zeros();
    let names: String = (0..propositions).map(|number| format!(" \"p{number}\"")).collect();
    let mut text = format!(
        "HOA: v1\nStates: {}\nStart: {}\nAP: {propositions}{names}\nacc-name: Buchi\nAcceptance: 1 Inf(0)\n--BODY--\n",
        automaton.states(),
        automaton.initial()
    );
    for state in 0..automaton.states() {
        let accepting = if automaton.accepts(state) { " {0}" } else { "" };
        // Writing to a string does not fail.
        let _ = writeln!(text, "State: {state}{accepting}");
        edges(&mut text, automaton, state);
    }
    Ok(text + "--END--\n")
}

fn edges(text: &mut String, automaton: &Automaton, from: u8) {
    for to in 0..automaton.states() {
        let letters =
            (0..automaton.letters()).filter(|&letter| automaton.targets(from, letter).any(|target| target == to));
        let mask = letters.fold(0, |mask: u16, letter| mask | 1 << letter);
        if mask != 0 {
            let _ = writeln!(text, "  [{}] {to}", label(mask, automaton.letters()));
        }
    }
}

/// The letters in which some propositions have given values.
struct Cube {
    /// The propositions whose value is given, as bits.
    given: u8,
    /// Their values.
    values: u8,
    /// The letters.
    mask: u16,
}

impl Cube {
    fn new(given: u8, values: u8, letters: u8) -> Cube {
        let inside = (0..letters).filter(|letter| letter & given == values);
        let mask = inside.fold(0, |mask, letter| mask | 1 << letter);
        Cube { given, values, mask }
    }

    /// What holds in these letters and no others; `t` if these are all.
    fn literals(&self) -> String {
        let given = (0..4).filter(|number| self.given >> number & 1 == 1);
        let literals = given.map(|number| match self.values >> number & 1 {
            1 => format!("{number}"),
            _ => format!("!{number}"),
        });
        match self.given {
            0 => "t".into(),
            _ => literals.collect::<Vec<_>>().join("&"),
        }
    }
}

/// A short label that is true at the letters of this set, of so many letters, and at no others. The set is not empty.
fn label(set: u16, letters: u8) -> String {
    let values = (0..letters).flat_map(|given| (0..letters).map(move |values| (given, values)));
    let cubes = values.map(|(given, values)| Cube::new(given, values, letters));
    let inside: Vec<Cube> = cubes.filter(|cube| cube.mask != 0 && cube.mask & !set == 0).collect();
    let (mut open, mut parts) = (set, Vec::new());
    while open != 0 {
        // The cube with the most letters that are still open; of several the one with the fewest literals, then the first.
        let gain = |cube: &&Cube| ((cube.mask & open).count_ones(), cube.given.count_zeros());
        let Some(best) = inside.iter().rev().max_by_key(gain) else {
            break;
        };
        open &= !best.mask;
        parts.push(best.literals());
    }
    parts.join(" | ")
}

#[cfg(test)]
mod tests {
    use super::label;

    /// The letters that the kernel finds in a label, as the bits of a number.
    fn read(propositions: u32, label: &str) -> u16 {
        let names = " \"p\"".repeat(propositions as usize);
        let text = format!(
            "HOA: v1 States: 1 Start: 0 AP: {propositions}{names} Acceptance: 1 Inf(0) --BODY-- State: 0 [{label}] 0 --END--"
        );
        let file = edition::from_hanoi(text.as_bytes()).expect("the label is in the subset");
        let records = file[5..file.len() - 2].chunks(5);
        records.fold(0, |mask, record| mask | 1 << record[3])
    }

    #[test]
    fn every_set_of_letters_has_a_label_that_the_kernel_reads_as_that_set() {
        for propositions in 0..=4 {
            let letters = 1u8 << propositions;
            let all = (1u32 << letters) - 1;
            for mask in 1..=all as u16 {
                let label = label(mask, letters);
                assert_eq!(read(propositions, &label), mask, "{propositions} propositions, {label}");
                assert!(label.matches('|').count() < 8, "{label}");
            }
        }
    }

    #[test]
    fn labels_are_short() {
        for (mask, letters, wanted) in [
            (1, 1, "t"),
            (0b11, 2, "t"),
            (0b10, 2, "0"),
            (0b01, 2, "!0"),
            (0b1101, 4, "!0 | 1"),
            (0b0010, 4, "0&!1"),
            (0b0110, 4, "0&!1 | !0&1"),
            (0b1111_0010, 8, "2 | 0&!1"),
            (0xFFFE, 16, "0 | 1 | 2 | 3"),
            (0x8000, 16, "0&1&2&3"),
        ] {
            assert_eq!(label(mask, letters), wanted);
        }
    }
}
