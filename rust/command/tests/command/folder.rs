//! A folder of a test's own, and runs of the command in it.

use std::ffi::OsStr;
use std::fs::{self, File, OpenOptions};
use std::path::{Path, PathBuf};
use std::process::{Child, Command, Output, Stdio};

/// The repository.
pub const ROOT: &str = concat!(env!("CARGO_MANIFEST_DIR"), "/../..");

pub struct Folder {
    path: PathBuf,
}

/// What a run printed, and its exit status.
#[derive(Debug, PartialEq, Eq)]
pub struct Run {
    pub status: i32,
    pub out: String,
    pub err: String,
}

impl Folder {
    /// A folder with the four worked automata of document 01, as files and as Hanoi texts, one with a dead state, one that accepts all
    /// words of two letters and one that accepts those of letter 0.
    pub fn new(test: &str) -> Folder {
        let path = Path::new(env!("CARGO_TARGET_TMPDIR")).join(test);
        let _ = fs::remove_dir_all(&path);
        fs::create_dir_all(&path).expect("a folder");
        for name in ["f.ba", "g.ba", "h.ba", "j.ba", "f.hoa", "g.hoa", "h.hoa", "j.hoa"] {
            fs::copy(Path::new(ROOT).join("examples").join(name), path.join(name)).expect("an example");
        }
        let folder = Folder { path };
        folder.write("dead.ba", b"AH\x01\x01\x00AE");
        folder.write("both.ba", b"AH\x02\x02\x00AF\x00AT\x00\x00\x00AT\x00\x01\x00AE");
        folder.write("zero.ba", b"AH\x01\x02\x00AF\x00AT\x00\x00\x00AE");
        folder
    }

    pub fn path(&self, name: &str) -> PathBuf {
        self.path.join(name)
    }

    pub fn write(&self, name: &str, bytes: &[u8]) {
        fs::write(self.path(name), bytes).expect("a written file");
    }

    pub fn read(&self, name: &str) -> Vec<u8> {
        fs::read(self.path(name)).expect("a file")
    }

    /// The names in the folder that begin so, in order.
    pub fn names(&self, beginning: &str) -> Vec<String> {
        let items = fs::read_dir(&self.path).expect("the folder");
        let names = items.map(|item| item.expect("an item").file_name().into_string().expect("a plain name"));
        let mut names: Vec<String> = names.filter(|name| name.starts_with(beginning)).collect();
        names.sort();
        names
    }

    /// The command with these words, to be run in the folder.
    pub fn command<W: AsRef<OsStr>>(&self, words: &[W]) -> Command {
        let mut command = Command::new(env!("CARGO_BIN_EXE_edition"));
        let listing = Path::new(ROOT).join("target/bin/listing");
        command
            .args(words)
            .current_dir(&self.path)
            .env("EDITION_LISTING", listing)
            .stdin(Stdio::null());
        command
    }

    pub fn run<W: AsRef<OsStr>>(&self, words: &[W]) -> Run {
        Run::of(self.command(words).output().expect("a run"))
    }

    /// Runs the words with the file of this name as standard input.
    pub fn run_on(&self, input: &str, words: &[&str]) -> Run {
        let file = File::open(self.path(input)).expect("a file");
        Run::of(self.command(words).stdin(file).output().expect("a run"))
    }

    /// Runs the words, given with single spaces between them, with a standard output that takes no byte.
    pub fn run_untold(&self, words: &str) -> Run {
        let full = OpenOptions::new().write(true).open("/dev/full");
        let mut command = self.command(&words.split(' ').collect::<Vec<_>>());
        Run::of(command.stdout(full.expect("the full device")).output().expect("a run"))
    }

    /// The library that stops a program, compiled.
    pub fn stopper(&self) -> PathBuf {
        let library = self.path("stop.so");
        let source = concat!(env!("CARGO_MANIFEST_DIR"), "/tests/command/stop.c");
        let mut compiler = Command::new("cc");
        compiler
            .args([
                "-std=c99", "-Wall", "-Wextra", "-Werror", "-O1", "-shared", "-fPIC", "-o",
            ])
            .arg(&library)
            .arg(source);
        assert!(compiler.status().expect("a C compiler").success());
        library
    }

    /// The command with these words, to be stopped by the library at this call.
    pub fn stopped(&self, words: &[&str], library: &Path, call: usize, how: &str) -> Command {
        let mut command = self.command(words);
        command
            .env("LD_PRELOAD", library)
            .env("STOP_AT", call.to_string())
            .env("STOP_HOW", how);
        command
    }

    pub fn start(&self, words: &[&str]) -> Child {
        let mut command = self.command(words);
        command
            .stdout(Stdio::piped())
            .stderr(Stdio::piped())
            .spawn()
            .expect("a run")
    }

    /// Runs the words, given with single spaces between them, and checks the status and the first line printed.
    pub fn answers(&self, words: &str, status: i32, line: &str) {
        let run = self.run(&words.split(' ').collect::<Vec<_>>());
        assert_eq!(
            (run.status, run.out.lines().next().unwrap_or("")),
            (status, line),
            "{words}: {run:?}"
        );
    }
}

impl Run {
    pub fn of(output: Output) -> Run {
        let text = |bytes| String::from_utf8(bytes).expect("what is printed is text");
        // A run that a signal ended has no status: it stands as -1.
        Run {
            status: output.status.code().unwrap_or(-1),
            out: text(output.stdout),
            err: text(output.stderr),
        }
    }
}
