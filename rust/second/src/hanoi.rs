//! Hanoi files (S-2 of document 02): a text of the subset as an automaton, in the fixed form.
//!
//! The text is cut into tokens first, and the tokens are read one by one. The list of tokens ends at the first place where no token can
//! stand, and a number is tested as soon as it is read, so the first fault in text order decides. A label becomes a tree, in which every
//! letter is looked up for itself.

mod label;
mod tokens;

use crate::automaton::{contains, singleton, Automaton, StateSet, MAX_STATES};
use crate::refusal::Refusal;
use crate::write;
use label::Label;
use tokens::{tokens, Reader, Token};

/// Most propositions of a text.
const MAX_PROPOSITIONS: u8 = 4;

/// Writes the automaton of a Hanoi text in the fixed form, with one number: kind + 2^8 length. Kind is 0 written, 100 plus a refusal's
/// number. With 16 the length is the one needed, with other refusals 0.
pub fn hanoi_write(text: &[u8], out: &mut [u8]) -> u64 {
    write::number(read(text).and_then(|automaton| write::write_automaton(&automaton, out)))
}

/// The automaton that the text describes, or the refusal (3, 4, 17 or 18) of the first fault.
pub fn read(text: &[u8]) -> Result<Automaton, Refusal> {
    let tokens = tokens(text);
    let mut reader = Reader::new(&tokens);
    let (automaton, propositions) = header(&mut reader)?;
    let body = Body {
        tokens: reader,
        propositions,
        automaton,
        declared: 0,
        label: Label::default(),
    };
    body.read()
}

/// An automaton without accepting states and transitions, and the number of propositions.
fn header(tokens: &mut Reader) -> Result<(Automaton, u8), Refusal> {
    tokens.expect(&[Token::Hoa, Token::Version, Token::States])?;
    let states = tokens.number()?;
    check((1..=MAX_STATES as u8).contains(&states), Refusal::Header)?;
    tokens.expect(&[Token::Start])?;
    let start = tokens.number()?;
    check(start < states, Refusal::Header)?;
    tokens.expect(&[Token::Propositions])?;
    let propositions = tokens.number()?;
    check(propositions <= MAX_PROPOSITIONS, Refusal::Propositions)?;
    for _ in 0..propositions {
        tokens.expect(&[Token::Name])?;
    }
    if tokens.take(Token::AcceptanceName) {
        tokens.expect(&[Token::Buchi])?;
    }
    tokens.expect(&[Token::Acceptance, Token::Number(1), Token::Infinitely])?;
    tokens.expect(&[
        Token::Opening(b'('),
        Token::Number(0),
        Token::Closing(b')'),
        Token::Body,
    ])?;
    let automaton = Automaton::new(states, 1 << propositions, start).ok_or(Refusal::Header)?;
    Ok((automaton, propositions))
}

fn check(passed: bool, refusal: Refusal) -> Result<(), Refusal> {
    passed.then_some(()).ok_or(refusal)
}

/// The body, with what it says of the automaton so far.
struct Body<'a> {
    tokens: Reader<'a>,
    propositions: u8,
    automaton: Automaton,
    declared: StateSet,
    /// The label that is read.
    label: Label,
}

impl Body<'_> {
    fn read(mut self) -> Result<Automaton, Refusal> {
        let mut from = None;
        loop {
            match (self.tokens.next(), from) {
                (Some(Token::State), _) => from = Some(self.declaration()?),
                (Some(Token::Opening(b'[')), Some(state)) => self.edge(state)?,
                (Some(Token::End), _) if self.tokens.next().is_none() => return Ok(self.automaton),
                _ => return Err(Refusal::Text),
            }
        }
    }

    /// The number of a state; 4 if there is no such state.
    fn state(&mut self) -> Result<u8, Refusal> {
        let state = self.tokens.number()?;
        check(self.automaton.has_state(state), Refusal::Outside)?;
        Ok(state)
    }

    /// The state that is declared behind `State:`.
    fn declaration(&mut self) -> Result<u8, Refusal> {
        let state = self.state()?;
        check(!contains(self.declared, state.into()), Refusal::Text)?;
        self.declared |= singleton(state.into());
        if self.tokens.take(Token::Opening(b'{')) {
            self.tokens.expect(&[Token::Number(0), Token::Closing(b'}')])?;
            self.automaton.add_accepting(state);
        }
        Ok(state)
    }

    /// An edge behind its first bracket. Transitions that are there already count once.
    fn edge(&mut self, from: u8) -> Result<(), Refusal> {
        self.label.read(&mut self.tokens, self.propositions)?;
        let to = self.state()?;
        for letter in 0..self.automaton.letters() as u8 {
            if self.label.is_true(letter) {
                self.automaton.add_transition(from, letter, to);
            }
        }
        Ok(())
    }
}
