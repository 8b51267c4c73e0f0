//! Never claims read as automata: the form that `spin -f` prints, and the form of `./edition show --never`.
//!
//! A claim is a list of states, the initial one first. A state has labels and then `if` or `do` with steps, `skip` or `false`. It accepts if
//! one of its labels begins with `accept`. A step has a guard over propositions and leads to a label; the step
//! `atomic { guard -> assert(..) }` ends the check of a run as accepted, and so leads to the state `accept_all: skip`, which
//! accepts all that follows. Faults in the text are panics: the texts are made by the test.

use std::collections::HashMap;

/// A claim with its labels resolved.
pub struct Claim {
    states: Vec<State>,
    /// The state of each label.
    places: HashMap<String, usize>,
}

#[derive(Default)]
struct State {
    accepts: bool,
    /// Whether every letter leads back to the state.
    stays: bool,
    steps: Vec<(Guard, String)>,
}

/// A guard: whether it holds of a letter, whose bits are the propositions.
enum Guard {
    True,
    Proposition(u32),
    Not(Box<Guard>),
    And(Box<Guard>, Box<Guard>),
    Or(Box<Guard>, Box<Guard>),
}

impl Claim {
    pub fn read(text: &str) -> Claim {
        let mut words = words(text).into_iter().peekable();
        let mut claim = Claim {
            states: Vec::new(),
            places: HashMap::new(),
        };
        let mut begun = false; // whether the last state has labels only
        while let Some(word) = words.next() {
            match word.as_str() {
                "never" | "{" | "}" | "if" | "do" | "fi" | "od" | ";" => (),
                "false" => begun = false,
                "skip" => (claim.last().stays, begun) = (true, false),
                "::" => {
                    let step = read_step(&mut words);
                    claim.last().steps.push(step);
                    begun = false;
                }
                label => {
                    assert_eq!(words.next().as_deref(), Some(":"), "after {label}");
                    claim.label(label, begun);
                    begun = true;
                }
            }
        }
        claim
    }

    /// The state that the text is at.
    fn last(&mut self) -> &mut State {
        self.states.last_mut().expect("a label comes first")
    }

    /// Gives a label to a new state, or to the last one if that is `begun`.
    fn label(&mut self, label: &str, begun: bool) {
        if !begun {
            self.states.push(State::default());
        }
        let place = self.states.len() - 1;
        assert!(
            self.places.insert(label.into(), place).is_none(),
            "two states are {label}"
        );
        self.last().accepts |= label.starts_with("accept");
    }

    /// The claim as an automaton file over so many letters, its states in the order of the text.
    pub fn file(&self, letters: u8) -> Vec<u8> {
        let mut bytes = vec![b'A', b'H', self.states.len() as u8, letters, 0];
        for (place, state) in (0..).zip(&self.states) {
            if state.accepts {
                bytes.extend([b'A', b'F', place]);
            }
            for letter in 0..letters {
                let targets = self.targets(usize::from(place), letter);
                bytes.extend(targets.iter().flat_map(|&to| [b'A', b'T', place, letter, to]));
            }
        }
        bytes.extend(b"AE");
        bytes
    }

    /// Where the letter leads, upwards.
    fn targets(&self, place: usize, letter: u8) -> Vec<u8> {
        let state = &self.states[place];
        let open = state.steps.iter().filter(|(guard, _)| guard.holds(letter));
        let mut targets: Vec<u8> = open.map(|(_, label)| self.places[label] as u8).collect();
        targets.extend(state.stays.then_some(place as u8));
        targets.sort();
        targets.dedup();
        targets
    }
}

impl Guard {
    fn holds(&self, letter: u8) -> bool {
        match self {
            Guard::True => true,
            Guard::Proposition(bit) => letter >> bit & 1 == 1,
            Guard::Not(guard) => !guard.holds(letter),
            Guard::And(first, second) => first.holds(letter) && second.holds(letter),
            Guard::Or(first, second) => first.holds(letter) || second.holds(letter),
        }
    }
}

type Words = std::iter::Peekable<std::vec::IntoIter<String>>;

/// Names, and marks of one or two characters; comments are left out.
fn words(text: &str) -> Vec<String> {
    let (mut words, mut rest) = (Vec::new(), text);
    while let Some(first) = rest.chars().next() {
        let length = match rest.get(..2) {
            Some("/*") => rest.find("*/").expect("the comment ends") + 2,
            Some("::" | "->" | "&&" | "||") => 2,
            _ => rest
                .find(|c: char| !c.is_alphanumeric() && c != '_')
                .unwrap_or(rest.len())
                .max(1),
        };
        let (word, after) = rest.split_at(length);
        if !first.is_whitespace() && !word.starts_with("/*") {
            words.push(word.into());
        }
        rest = after;
    }
    words
}

fn take(words: &mut Words, wanted: &str) {
    assert_eq!(words.next().as_deref(), Some(wanted));
}

/// A step after its `::`.
fn read_step(words: &mut Words) -> (Guard, String) {
    let ends = words.next_if_eq("atomic").is_some();
    if ends {
        take(words, "{");
    }
    let guard = read_or(words);
    take(words, "->");
    if !ends {
        take(words, "goto");
        return (guard, words.next().expect("a label"));
    }
    take(words, "assert");
    read_or(words);
    take(words, "}");
    (guard, "accept_all".into())
}

fn read_or(words: &mut Words) -> Guard {
    let mut guard = read_and(words);
    while words.next_if_eq("||").is_some() {
        guard = Guard::Or(Box::new(guard), Box::new(read_and(words)));
    }
    guard
}

fn read_and(words: &mut Words) -> Guard {
    let mut guard = read_not(words);
    while words.next_if_eq("&&").is_some() {
        guard = Guard::And(Box::new(guard), Box::new(read_not(words)));
    }
    guard
}

fn read_not(words: &mut Words) -> Guard {
    match words.next().as_deref() {
        Some("!") => Guard::Not(Box::new(read_not(words))),
        Some("(") => {
            let guard = read_or(words);
            take(words, ")");
            guard
        }
        Some("1" | "true") => Guard::True,
        Some("p" | "p0") => Guard::Proposition(0),
        Some("q" | "p1") => Guard::Proposition(1),
        Some("r" | "p2") => Guard::Proposition(2),
        Some("p3") => Guard::Proposition(3),
        other => panic!("no guard begins with {other:?}"),
    }
}
