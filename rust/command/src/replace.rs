//! Files that are replaced whole or not at all.
//!
//! Beside such a file stand two others. NAME.lock is locked by whoever is about to replace the file: that is another file after each
//! replacement, so a lock on it would not last. NAME.unfinished has the bytes that are being written; it becomes the file by
//! renaming, once its bytes are on the disk. If a run is killed before that, the file is as it was, and the next run writes
//! NAME.unfinished again.

use std::ffi::OsStr;
use std::fs::{self, File, OpenOptions};
use std::io::{self, ErrorKind, Write};
use std::path::{Path, PathBuf};

use crate::answer::Failure;
use crate::files::{failed, front_at, is_same, Source};

const LOCK: &str = "lock";
const UNFINISHED: &str = "unfinished";

/// The place of a file that is replaced whole.
pub struct Target {
    /// The name that was given.
    name: PathBuf,
    /// Where the file is, links followed, if there is one.
    path: PathBuf,
}

/// The place of a file that no other run replaces while this value lives.
pub struct Locked {
    target: Target,
    lock: File,
}

impl Target {
    /// The place of this name. A symbolic link stands for the file that it leads to, so that all names of a file share its lock.
    pub fn at(path: &Path) -> Result<Target, Failure> {
        if [LOCK, UNFINISHED]
            .iter()
            .any(|ending| path.extension() == Some(OsStr::new(ending)))
        {
            let message = format!(
                "{}: names that end in .lock or .unfinished are for files beside a STORE or an OUT",
                path.display()
            );
            return Err(Failure::Usage(message));
        }
        let name = path.to_path_buf();
        match path.canonicalize() {
            Ok(path) => Ok(Target { name, path }),
            Err(error) if error.kind() == ErrorKind::NotFound && !path.is_symlink() => Ok(Target {
                path: name.clone(),
                name,
            }),
            Err(error) => Err(failed("read", path, &error)),
        }
    }

    /// The name that was given.
    pub fn name(&self) -> &Path {
        &self.name
    }

    pub fn path(&self) -> &Path {
        &self.path
    }

    /// Whether there is a file.
    pub fn is_there(&self) -> Result<bool, Failure> {
        let there = self.path.try_exists();
        there.map_err(|error| failed("read", &self.name, &error))
    }

    /// The bytes of the file, but not more than `length` of them.
    pub fn front(&self, length: u64) -> Result<Vec<u8>, Failure> {
        front_at(&self.path, length).map_err(|error| failed("read", &self.name, &error))
    }

    /// Waits until no other run is about to replace the file. FILE is what the new bytes come from.
    pub fn lock(self, file: Source<'_>) -> Result<Locked, Failure> {
        self.spare(file)?;
        let path = self.beside(LOCK);
        match lock_at(&path) {
            Ok(lock) => Ok(Locked { target: self, lock }),
            // The folder is missing.
            Err(error) if error.kind() == ErrorKind::NotFound => Err(failed("write", &self.name, &error)),
            Err(error) => {
                let (name, path) = (self.name.display(), path.display());
                Err(Failure::File(format!(
                    "cannot write {name}: cannot lock {path}: {error}"
                )))
            }
        }
    }

    /// Refuses a FILE that is NAME.unfinished: it would be removed.
    fn spare(&self, file: Source<'_>) -> Result<(), Failure> {
        let unfinished = self.beside(UNFINISHED);
        if !file.is_at(&unfinished) {
            return Ok(());
        }
        Err(Failure::File(format!(
            "cannot write {}: FILE is {}, which is taken for the rest of a killed run and removed; move that file away first",
            self.name.display(),
            unfinished.display()
        )))
    }

    /// The path of the file beside this one with this ending.
    fn beside(&self, ending: &str) -> PathBuf {
        let mut name = self.path.clone().into_os_string();
        name.push(".");
        name.push(ending);
        name.into()
    }
}

impl Locked {
    pub fn target(&self) -> &Target {
        &self.target
    }

    /// Replaces the file, or makes it.
    pub fn replace(&self, bytes: &[u8]) -> Result<(), Failure> {
        let Target { name, path } = &self.target;
        let unfinished = self.target.beside(UNFINISHED);
        let written = self
            .write(&unfinished, bytes)
            .map_err(|error| failed("write", &unfinished, &error));
        let renamed =
            written.and_then(|()| fs::rename(&unfinished, path).map_err(|error| failed("replace", name, &error)));
        renamed.inspect_err(|_| {
            // What cannot be removed here is removed by the next run that writes.
            let _ = fs::remove_file(&unfinished);
        })?;
        self.sync_folder().map_err(|error| {
            let message = format!(
                "the new {} is in place, but a power cut may undo that: {error}",
                name.display()
            );
            Failure::Replaced(message)
        })
    }

    /// Writes the bytes to a file of their own, with the permissions of the one to be replaced, and waits until they are on the disk.
    fn write(&self, unfinished: &Path, bytes: &[u8]) -> io::Result<()> {
        match fs::remove_file(unfinished) {
            Err(error) if error.kind() != ErrorKind::NotFound => return Err(error),
            _ => (),
        }
        let mut file = OpenOptions::new().create_new(true).write(true).open(unfinished)?;
        if let Ok(old) = fs::metadata(&self.target.path) {
            file.set_permissions(old.permissions())?;
        }
        file.write_all(bytes)?;
        file.sync_all()
    }

    /// Waits until the folder's new entry for the file is on the disk.
    fn sync_folder(&self) -> io::Result<()> {
        let folder = match self.target.path.parent() {
            Some(folder) if folder != Path::new("") => folder,
            _ => Path::new("."),
        };
        File::open(folder)?.sync_all()
    }

    /// Removes the file with the lock. This run still holds the lock, and who waits for it makes another. A file with contents is not of this
    /// program's making, and stays.
    pub fn remove_lock(&self) {
        if self.lock.metadata().is_ok_and(|lock| lock.len() == 0) {
            // A lock that stays behind does no harm.
            let _ = fs::remove_file(self.target.beside(LOCK));
        }
    }
}

/// The file of this name, made where there is none, once this run holds its lock.
fn lock_at(path: &Path) -> io::Result<File> {
    loop {
        let lock = OpenOptions::new().create(true).truncate(false).write(true).open(path)?;
        lock.lock()?;
        if is_file_at(&lock, path)? {
            return Ok(lock);
        }
    }
}

/// Whether the open file is still the one of this name: its lock may be removed while others wait for it.
fn is_file_at(file: &File, path: &Path) -> io::Result<bool> {
    let held = file.metadata()?;
    match fs::metadata(path) {
        Ok(named) => Ok(is_same(&held, &named)),
        Err(error) if error.kind() == ErrorKind::NotFound => Ok(false),
        Err(error) => Err(error),
    }
}
