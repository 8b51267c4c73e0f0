//! OUT: the file that an automaton is written to. Its lock is gone when it is written.

use std::fs;
use std::path::Path;

use edition::{Entry, ENTRY_BYTES};

use crate::answer::Failure;
use crate::files::{failed, is_output, Source};
use crate::replace::Target;

/// Replaces the file of this name by the bytes, which come from FILE, or makes it. What is no OUT stays, and gets no lock beside it, unless it
/// came to be while this run waited for the lock.
pub fn replace(path: &Path, bytes: &[u8], file: Source<'_>) -> Result<(), Failure> {
    if is_output(path) {
        let message = format!(
            "{} is standard output itself: leave OUT out, and the file goes there",
            path.display()
        );
        return Err(Failure::Usage(message));
    }
    let target = Target::at(path)?;
    check(&target)?;
    let locked = target.lock(file)?;
    // A STORE that came to be meanwhile keeps its lock.
    check(locked.target())?;
    let replaced = locked.replace(bytes);
    locked.remove_lock();
    replaced
}

/// What `show` takes for a STORE is no OUT, since only open and offer replace it; nor is a folder or a device.
fn check(target: &Target) -> Result<(), Failure> {
    if !target.is_there()? {
        return Ok(());
    }
    let metadata = fs::metadata(target.path()).map_err(|error| failed("read", target.name(), &error))?;
    let why = if !metadata.is_file() {
        "it is no plain file"
    } else if Entry::is_meant(&target.front(ENTRY_BYTES as u64 + 1)?) {
        "it begins as a STORE does or is as long as one, and open and offer alone replace a STORE"
    } else {
        return Ok(());
    };
    Err(Failure::File(format!(
        "cannot replace {}: {why}",
        target.name().display()
    )))
}
