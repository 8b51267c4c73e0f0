//! A STORE: a file that holds one entry. Its lock stays beside it as long as there is a STORE.

use std::path::Path;

use edition::{Entry, ENTRY_BYTES};

use crate::answer::Failure;
use crate::files::{is_output, Source};
use crate::replace::{self, Target};

/// A STORE's place.
pub struct Store {
    target: Target,
}

/// A STORE that no other run replaces while this value lives.
pub struct Locked {
    locked: replace::Locked,
}

impl Store {
    /// The STORE of this name.
    pub fn at(path: &Path) -> Result<Store, Failure> {
        Target::at(path).map(|target| Store { target })
    }

    /// The entry in the STORE. Malformed bytes are refused with 9.
    pub fn entry(&self) -> Result<Entry, Failure> {
        entry(&self.target)
    }

    /// Waits until no other run is about to replace the STORE. FILE is what the new entry comes from. What is no STORE gets no lock
    /// beside it.
    pub fn lock(self, file: Source<'_>) -> Result<Locked, Failure> {
        self.entry()?;
        self.locked(file)
    }

    /// As `lock`, for a STORE that may have to be made.
    pub fn lock_or_make(self, file: Source<'_>) -> Result<Locked, Failure> {
        match self.target.is_there()? {
            true => self.lock(file),
            false => self.locked(file),
        }
    }

    fn locked(self, file: Source<'_>) -> Result<Locked, Failure> {
        if is_output(self.target.path()) {
            let message = format!(
                "{} is standard output itself, and the answer goes there",
                self.target.name().display()
            );
            return Err(Failure::Usage(message));
        }
        self.target.lock(file).map(|locked| Locked { locked })
    }
}

impl Locked {
    /// The entry in the STORE.
    pub fn entry(&self) -> Result<Entry, Failure> {
        entry(self.locked.target())
    }

    /// The entry in the STORE, or a fresh one where there is no STORE.
    pub fn entry_or_fresh(&self) -> Result<Entry, Failure> {
        match self.locked.target().is_there()? {
            true => self.entry(),
            false => Ok(Entry::fresh()),
        }
    }

    /// Replaces the STORE.
    pub fn replace(&self, entry: &Entry) -> Result<(), Failure> {
        self.locked.replace(&entry.to_bytes())
    }
}

impl Drop for Locked {
    /// Where there is no STORE, there is no lock beside it.
    fn drop(&mut self) {
        if self.locked.target().is_there().is_ok_and(|there| !there) {
            self.locked.remove_lock();
        }
    }
}

fn entry(target: &Target) -> Result<Entry, Failure> {
    let bytes = target.front(ENTRY_BYTES as u64 + 1)?;
    Ok(Entry::from_bytes(&bytes)?)
}
