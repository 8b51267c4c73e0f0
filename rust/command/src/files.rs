//! Reading files whole, up to a length, and telling whether two names are of one file.

use std::fmt;
use std::fs::{self, File, Metadata};
use std::io::{self, Read};
use std::os::fd::AsFd;
use std::os::unix::fs::MetadataExt;
use std::path::Path;

use crate::answer::Failure;

/// Longer files are not read. The longest automaton file has 82,023 bytes: a header, 32 accepting records, 16,384 transitions and
/// the end. Hanoi texts have no longest one; with an edge for each of those transitions there is room for 60 bytes each.
pub const LONGEST: u64 = 1 << 20;

/// Where an automaton file or a Hanoi text comes from.
#[derive(Clone, Copy)]
pub enum Source<'a> {
    /// Standard input.
    Input,
    /// A file of this name.
    File(&'a Path),
}

impl fmt::Display for Source<'_> {
    fn fmt(&self, f: &mut fmt::Formatter<'_>) -> fmt::Result {
        match self {
            Source::Input => f.write_str("standard input"),
            Source::File(path) => write!(f, "{}", path.display()),
        }
    }
}

impl Source<'_> {
    /// The bytes.
    pub fn whole(self) -> Result<Vec<u8>, Failure> {
        self.front(LONGEST + 1).and_then(|bytes| self.limited(bytes))
    }

    /// These bytes, which are what comes from there up to some length, unless they are too many.
    pub fn limited(self, bytes: Vec<u8>) -> Result<Vec<u8>, Failure> {
        if bytes.len() as u64 <= LONGEST {
            return Ok(bytes);
        }
        Err(Failure::File(match edition::is_hanoi(&bytes) {
            true => format!("{self} is a Hanoi text of over {LONGEST} bytes: such long ones are not read"),
            false => format!("{self} is longer than any automaton file: over {LONGEST} bytes"),
        }))
    }

    /// The bytes, but not more than `length` of them.
    pub fn front(self, length: u64) -> Result<Vec<u8>, Failure> {
        let read = match self {
            Source::Input => read_front(io::stdin().lock(), length),
            Source::File(path) => front_at(path, length),
        };
        read.map_err(|error| Failure::File(format!("cannot read {self}: {error}")))
    }

    /// Whether this is the file of that name.
    pub fn is_at(self, path: &Path) -> bool {
        let file = match self {
            Source::Input => of_stream(io::stdin()),
            Source::File(path) => fs::metadata(path),
        };
        are_one(file, fs::metadata(path))
    }
}

/// Whether the file of this name is standard output, be that a file, a pipe or a device.
pub fn is_output(path: &Path) -> bool {
    are_one(of_stream(io::stdout()), fs::metadata(path))
}

/// What the system says of the file behind a stream.
fn of_stream(stream: impl AsFd) -> io::Result<Metadata> {
    File::from(stream.as_fd().try_clone_to_owned()?).metadata()
}

/// Whether both are there and are one file.
fn are_one(first: io::Result<Metadata>, second: io::Result<Metadata>) -> bool {
    first.is_ok_and(|first| second.is_ok_and(|second| is_same(&first, &second)))
}

/// Whether these are of one file, by its device and inode: links to a file are that file.
pub fn is_same(first: &Metadata, second: &Metadata) -> bool {
    (first.dev(), first.ino()) == (second.dev(), second.ino())
}

/// The bytes of the file of this name, but not more than `length` of them.
pub fn front_at(path: &Path, length: u64) -> io::Result<Vec<u8>> {
    read_front(File::open(path)?, length)
}

fn read_front(from: impl Read, length: u64) -> io::Result<Vec<u8>> {
    let mut bytes = Vec::new();
    from.take(length).read_to_end(&mut bytes)?;
    Ok(bytes)
}

/// A failure with the file's name and what the system says.
pub fn failed(action: &str, path: &Path, error: &io::Error) -> Failure {
    Failure::File(format!("cannot {action} {}: {error}", path.display()))
}
