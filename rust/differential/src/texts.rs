//! Hanoi texts as they are drawn, spelt and spoilt.

use crate::automata::{draw_states, Plain};
use crate::formulas::{Formula, MAX_DEPTH};
use crate::random::Random;

/// Most propositions.
pub const MAX_PROPOSITIONS: usize = 4;

const WHITE: [u8; 4] = [b' ', b'\n', b'\t', b'\r'];

/// What a token stands for, where it has a value that can be outside.
#[derive(Clone, Copy, Debug, PartialEq, Eq)]
pub enum Role {
    States,
    Start,
    Count,
    State,
    Target,
    Proposition,
    Other,
}

/// A token, and whether no white space stands before it although it needs some.
#[derive(Clone)]
pub struct Token {
    pub bytes: Vec<u8>,
    pub role: Role,
    pub touches: bool,
}

impl Token {
    pub fn new(bytes: impl AsRef<[u8]>, role: Role) -> Token {
        Token {
            bytes: bytes.as_ref().to_vec(),
            role,
            touches: false,
        }
    }

    pub fn is_number(&self) -> bool {
        self.bytes.iter().all(u8::is_ascii_digit)
    }
}

/// A declared state with its edges: labels and targets.
pub struct Declared {
    pub state: usize,
    pub accepts: bool,
    pub edges: Vec<(Formula, usize)>,
}

/// What a text says.
pub struct Described {
    pub states: usize,
    pub start: usize,
    pub propositions: usize,
    pub declared: Vec<Declared>,
}

impl Described {
    /// States in any order, some of them not declared; edges that may overlap.
    pub fn drawn(random: &mut Random) -> Described {
        let states = draw_states(random);
        let propositions = random.pick(&[0, 1, 1, 1, 2, 2, 2, 3, 3, 4, 4]);
        let mut order: Vec<usize> = (0..states).collect();
        random.shuffle(&mut order);
        order.truncate(states - random.pick(&[0, 0, 1]).min(states));
        let most = random.pick(&[1, 2, 4, 8]);
        let declared = |state| Declared {
            state,
            accepts: random.chance(1, 2),
            edges: (0..random.below(most + 1))
                .map(|_| (draw_label(random, propositions), random.below(states)))
                .collect(),
        };
        Described {
            declared: order.into_iter().map(declared).collect(),
            start: random.below(states),
            states,
            propositions,
        }
    }

    /// The text of an automaton with 2 letters: an edge for each transition.
    pub fn of_plain(plain: &Plain) -> Described {
        assert_eq!(plain.letters, 2);
        let label = |letter| match letter {
            0 => Formula::Not(Box::new(Formula::Proposition(0))),
            _ => Formula::Proposition(0),
        };
        let edges = |state: usize| {
            let places = (0..2).flat_map(|letter| (0..plain.states).map(move |to| (letter, to)));
            let there = places.filter(|&(letter, to)| plain.rows[state * 2 + letter] >> to & 1 == 1);
            there.map(|(letter, to)| (label(letter), to)).collect()
        };
        let declared = |state| Declared {
            state,
            accepts: plain.accepting >> state & 1 == 1,
            edges: edges(state),
        };
        Described {
            states: plain.states,
            start: plain.initial,
            propositions: 1,
            declared: (0..plain.states).map(declared).collect(),
        }
    }

    /// The automaton that the text describes, by the definition of truth.
    pub fn plain(&self) -> Plain {
        let letters = 1 << self.propositions;
        let mut plain = Plain::bare(self.states, letters, self.start);
        for declared in &self.declared {
            plain.accepting |= u32::from(declared.accepts) << declared.state;
            for (label, to) in &declared.edges {
                for letter in (0..letters).filter(|&letter| label.is_true(letter)) {
                    plain.rows[declared.state * letters + letter] |= 1 << to;
                }
            }
        }
        plain
    }

    /// The tokens of the text, with drawn names, and with `acc-name: Buchi` or without.
    pub fn tokens(&self, random: &mut Random) -> Vec<Token> {
        let mut tokens = Vec::new();
        let mut put = |bytes: &[u8], role| tokens.push(Token::new(bytes, role));
        let header = [
            ("HOA: v1 States:", Role::States, self.states),
            ("Start:", Role::Start, self.start),
        ];
        for (words, role, value) in header.into_iter().chain([("AP:", Role::Count, self.propositions)]) {
            words.split(' ').for_each(|word| put(word.as_bytes(), Role::Other));
            put(value.to_string().as_bytes(), role);
        }
        for _ in 0..self.propositions {
            put(&draw_name(random), Role::Other);
        }
        let name = random.pick(&["acc-name: Buchi ", ""]);
        let words = format!("{name}Acceptance: 1 Inf ( 0 ) --BODY--");
        words.split(' ').for_each(|word| put(word.as_bytes(), Role::Other));
        for declared in &self.declared {
            declared.put_tokens(&mut put);
        }
        put(b"--END--", Role::Other);
        tokens
    }
}

impl Declared {
    fn put_tokens(&self, put: &mut impl FnMut(&[u8], Role)) {
        put(b"State:", Role::Other);
        put(self.state.to_string().as_bytes(), Role::State);
        if self.accepts {
            ["{", "0", "}"]
                .iter()
                .for_each(|mark| put(mark.as_bytes(), Role::Other));
        }
        for (label, to) in &self.edges {
            put(b"[", Role::Other);
            label.spell(&mut |token| {
                let is_number = token.as_bytes()[0].is_ascii_digit();
                put(
                    token.as_bytes(),
                    if is_number { Role::Proposition } else { Role::Other },
                );
            });
            put(b"]", Role::Other);
            put(to.to_string().as_bytes(), Role::Target);
        }
    }
}

/// A label of few levels, now and then as deep as one may be.
fn draw_label(random: &mut Random, propositions: usize) -> Formula {
    let levels = random.pick(&[0, 0, 1, 1, 2, 3, 4]);
    let label = Formula::drawn(random, propositions, levels);
    match random.below(60) {
        0 => label.nested(random, MAX_DEPTH),
        1 => label.nested(random, MAX_DEPTH - 1),
        _ => label,
    }
}

/// A name: letters, or any bytes that may stand in one.
fn draw_name(random: &mut Random) -> Vec<u8> {
    let length = random.pick(&[0, 1, 1, 2, 5, 20]);
    let is_inside = |byte: &u8| !matches!(byte, b'"' | b'\\');
    let inside = (0..length).map(|_| random.between(0x20, 0x7E) as u8).filter(is_inside);
    let inside: Vec<u8> = inside.collect();
    [b"\"", inside.as_slice(), b"\""].concat()
}

/// Would letters or digits touch without white space between the two?
pub fn would_touch(before: &[u8], token: &[u8]) -> bool {
    let alphanumeric = |byte: Option<&u8>| byte.is_some_and(u8::is_ascii_alphanumeric);
    alphanumeric(before.last()) && alphanumeric(token.first())
}

/// The bytes of a text: white space where it is needed, and elsewhere none, a blank or any; none before a token that touches.
pub fn spelt(random: &mut Random, tokens: &[Token]) -> Vec<u8> {
    let most = random.pick(&[0, 0, 1, 1, 2, 4]);
    let always = random.chance(1, 3);
    let mut text = Vec::new();
    for token in tokens {
        if !token.touches {
            if always || would_touch(&text, &token.bytes) {
                text.push(b' ');
            }
            put_white(random, &mut text, most);
        }
        text.extend(&token.bytes);
    }
    put_white(random, &mut text, most);
    text
}

fn put_white(random: &mut Random, text: &mut Vec<u8>, most: usize) {
    for _ in 0..random.below(most + 1) {
        text.push(random.pick(&WHITE));
    }
}
