//! Runs the built command: answers, wrong use, standard input, JSON, pictures, never claims, Hanoi texts, files written, and what kills and
//! faults leave of a STORE and of a written file.

mod answers;
mod folder;
mod hanoi;
mod input;
mod json;
mod never;
mod pictures;
mod store;
mod write;
mod wrong_use;
