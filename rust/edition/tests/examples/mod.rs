//! The automaton files of examples/, for the tests.

use std::fs;
use std::path::PathBuf;

/// The files with their paths; those in folders of their own are left out.
pub fn all() -> Vec<(PathBuf, Vec<u8>)> {
    let folder = concat!(env!("CARGO_MANIFEST_DIR"), "/../../examples");
    let items = fs::read_dir(folder).expect("examples");
    let paths = items.map(|item| item.expect("an example").path());
    let files: Vec<_> = paths
        .filter(|path| path.extension().is_some_and(|ending| ending == "ba"))
        .map(|path| (path.clone(), fs::read(path).expect("a file")))
        .collect();
    assert!(files.len() >= 20, "{} examples", files.len());
    files
}
