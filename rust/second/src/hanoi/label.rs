//! Labels: the tree of the one that is read, and whether a letter makes it true.

use crate::hanoi::tokens::{Reader, Token};
use crate::refusal::Refusal;

/// Most `!` and pairs of parentheses around any place of a label.
const MAX_DEPTH: usize = 64;

/// A node's place in its tree.
type Place = usize;

/// What a node stands for. Chains of any length have one node, so a tree is no deeper than its label is nested.
#[derive(Clone, Copy)]
enum Kind {
    Constant(bool),
    Proposition(u8),
    Not(Place),
    /// All operands of a chain, from this one on.
    And(Place),
    /// Some operand of a chain, from this one on.
    Or(Place),
}

#[derive(Clone, Copy)]
struct Node {
    kind: Kind,
    /// The next operand of the chain that the node is an operand of.
    next: Option<Place>,
}

/// A label as a tree. It is used for one label after the other, so its memory is.
#[derive(Default)]
pub struct Label {
    nodes: Vec<Node>,
    root: Place,
}

impl Label {
    /// Reads the label of an edge between its brackets, of which the first is read; 17 if there is none, or if it has a proposition that
    /// is not below the count.
    pub fn read(&mut self, tokens: &mut Reader, propositions: u8) -> Result<(), Refusal> {
        self.nodes.clear();
        let mut parser = Parser {
            tokens,
            propositions,
            nodes: &mut self.nodes,
        };
        self.root = parser.either(0).ok_or(Refusal::Text)?;
        tokens.expect(&[Token::Closing(b']')])
    }

    /// Does the letter make the label true? Proposition 0 is the letter's lowest bit.
    pub fn is_true(&self, letter: u8) -> bool {
        self.holds(self.root, letter)
    }

    fn holds(&self, place: Place, letter: u8) -> bool {
        match self.nodes[place].kind {
            Kind::Constant(truth) => truth,
            Kind::Proposition(number) => letter >> number & 1 == 1,
            Kind::Not(operand) => !self.holds(operand, letter),
            Kind::And(first) => self.operands(first).all(|operand| self.holds(operand, letter)),
            Kind::Or(first) => self.operands(first).any(|operand| self.holds(operand, letter)),
        }
    }

    /// The operands of a chain, from its first one on.
    fn operands(&self, first: Place) -> impl Iterator<Item = Place> + '_ {
        std::iter::successors(Some(first), |&operand| self.nodes[operand].next)
    }
}

/// Reads a label. The functions give the place of what they read, if it is there; `depth` counts what is open around it.
struct Parser<'a, 'b> {
    tokens: &'a mut Reader<'b>,
    propositions: u8,
    nodes: &'a mut Vec<Node>,
}

impl Parser<'_, '_> {
    fn either(&mut self, depth: usize) -> Option<Place> {
        self.chain(Token::Or, Kind::Or, |parser| parser.both(depth))
    }

    fn both(&mut self, depth: usize) -> Option<Place> {
        self.chain(Token::And, Kind::And, |parser| parser.operand(depth))
    }

    /// Operands with a sign between them. One alone is no chain.
    fn chain(
        &mut self,
        sign: Token,
        kind: fn(Place) -> Kind,
        operand: impl Fn(&mut Self) -> Option<Place>,
    ) -> Option<Place> {
        let first = operand(self)?;
        let mut last = first;
        while self.tokens.take(sign) {
            let next = operand(self)?;
            self.nodes[last].next = Some(next);
            last = next;
        }
        if last == first {
            return Some(first);
        }
        Some(self.add(kind(first)))
    }

    fn operand(&mut self, depth: usize) -> Option<Place> {
        let kind = match self.tokens.next()? {
            Token::True => Kind::Constant(true),
            Token::False => Kind::Constant(false),
            Token::Number(number) if number < self.propositions => Kind::Proposition(number),
            Token::Not if depth < MAX_DEPTH => Kind::Not(self.operand(depth + 1)?),
            Token::Opening(b'(') if depth < MAX_DEPTH => {
                let inside = self.either(depth + 1)?;
                return self.tokens.take(Token::Closing(b')')).then_some(inside);
            }
            _ => return None,
        };
        Some(self.add(kind))
    }

    fn add(&mut self, kind: Kind) -> Place {
        self.nodes.push(Node { kind, next: None });
        self.nodes.len() - 1
    }
}
