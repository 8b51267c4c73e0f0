//! The second checker's tests: the documents' worked cases and table, and comparisons on small automata with what the
//! documents' definitions say when they are carried out literally (`definitions`).

mod contain;
mod dead;
mod definitions;
mod entry;
mod faulty;
mod file;
mod hanoi;
mod lasso;
mod listing;
mod random;
mod walk;
mod worked;
mod write;
