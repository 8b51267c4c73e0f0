//! What programs that call both checkers share: automata drawn from seeds, and calls on both checkers that are
//! compared.

pub mod automata;
pub mod buffer;
pub mod containment;
pub mod entries;
pub mod faults;
pub mod formulas;
pub mod hanoi;
pub mod listing;
pub mod random;
pub mod tally;
pub mod texts;
pub mod writing;
