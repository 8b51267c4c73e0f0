//! Labels of Hanoi texts as they are drawn and spelt.

use crate::random::Random;

/// Most `!` and pairs of parentheses around a place of a label.
pub const MAX_DEPTH: usize = 64;

/// A label as a tree; `Group` is a pair of parentheses that need not be there.
#[derive(Clone)]
pub enum Formula {
    Constant(bool),
    Proposition(usize),
    Not(Box<Formula>),
    Group(Box<Formula>),
    And(Vec<Formula>),
    Or(Vec<Formula>),
}

impl Formula {
    /// A tree of at most so many levels.
    pub fn drawn(random: &mut Random, propositions: usize, levels: usize) -> Formula {
        let choice = if levels == 0 { 0 } else { random.below(10) };
        match choice {
            0..=3 if propositions == 0 || random.chance(1, 8) => Formula::Constant(random.chance(1, 2)),
            0..=3 => Formula::Proposition(random.below(propositions)),
            4..=5 => Formula::Not(Box::new(Formula::drawn(random, propositions, levels - 1))),
            6 => Formula::Group(Box::new(Formula::drawn(random, propositions, levels - 1))),
            7..=8 => Formula::And(Formula::operands(random, propositions, levels)),
            _ => Formula::Or(Formula::operands(random, propositions, levels)),
        }
    }

    fn operands(random: &mut Random, propositions: usize, levels: usize) -> Vec<Formula> {
        let count = random.pick(&[2, 2, 2, 3, 5]);
        (0..count)
            .map(|_| Formula::drawn(random, propositions, levels - 1))
            .collect()
    }

    /// The formula with `!` and parentheses around it, so many that some place has this number around it, if it has not more.
    pub fn nested(self, random: &mut Random, depth: usize) -> Formula {
        let mut formula = self;
        for _ in formula.depth()..depth {
            let is_group = formula.is_chain() || random.chance(1, 2);
            let inside = Box::new(formula);
            formula = if is_group {
                Formula::Group(inside)
            } else {
                Formula::Not(inside)
            };
        }
        formula
    }

    /// Does the letter make it true? Proposition 0 is the lowest bit.
    pub fn is_true(&self, letter: usize) -> bool {
        match self {
            Formula::Constant(truth) => *truth,
            Formula::Proposition(number) => letter >> number & 1 == 1,
            Formula::Not(inside) => !inside.is_true(letter),
            Formula::Group(inside) => inside.is_true(letter),
            Formula::And(operands) => operands.iter().all(|operand| operand.is_true(letter)),
            Formula::Or(operands) => operands.iter().any(|operand| operand.is_true(letter)),
        }
    }

    /// Most `!` and pairs of parentheses around a place, as it is spelt.
    pub fn depth(&self) -> usize {
        let operands = |operands: &[Formula], needs: fn(&Formula) -> bool| {
            let depths = operands
                .iter()
                .map(|operand| operand.depth() + usize::from(needs(operand)));
            depths.max().unwrap_or(0)
        };
        match self {
            Formula::Constant(_) | Formula::Proposition(_) => 0,
            Formula::Not(inside) => 1 + inside.depth() + usize::from(inside.is_chain()),
            Formula::Group(inside) => 1 + inside.depth(),
            Formula::And(inside) => operands(inside, Formula::is_chain),
            Formula::Or(inside) => operands(inside, Formula::is_or),
        }
    }

    fn is_chain(&self) -> bool {
        matches!(self, Formula::And(_) | Formula::Or(_))
    }

    fn is_or(&self) -> bool {
        matches!(self, Formula::Or(_))
    }

    /// Spells the formula, each token by a call. Chains within chains have parentheses, but for `&` within `|`.
    pub fn spell(&self, put: &mut impl FnMut(&str)) {
        match self {
            Formula::Constant(truth) => put(if *truth { "t" } else { "f" }),
            Formula::Proposition(number) => put(&number.to_string()),
            Formula::Not(inside) => {
                put("!");
                inside.spell_within(put, inside.is_chain());
            }
            Formula::Group(inside) => inside.spell_within(put, true),
            Formula::And(operands) => {
                for (place, operand) in operands.iter().enumerate() {
                    put_between(put, place, "&");
                    operand.spell_within(put, operand.is_chain());
                }
            }
            Formula::Or(operands) => {
                for (place, operand) in operands.iter().enumerate() {
                    put_between(put, place, "|");
                    operand.spell_within(put, operand.is_or());
                }
            }
        }
    }

    fn spell_within(&self, put: &mut impl FnMut(&str), parentheses: bool) {
        if parentheses {
            put("(");
        }
        self.spell(put);
        if parentheses {
            put(")");
        }
    }
}

/// Puts the sign before every operand but the first.
fn put_between(put: &mut impl FnMut(&str), place: usize, sign: &str) {
    if place > 0 {
        put(sign);
    }
}
