//! Runs the proved program `listing` on two files, and reads its line.

use std::env;
use std::fs;
use std::io::{self, Write};
use std::mem;
use std::path::{Path, PathBuf};
use std::process::{self, Command, Stdio};

use edition::slots::SLOT_BYTES;
use edition::Refusal;
use json::Value;

use crate::answer::{advised, refused, Answer, Failure, FAILED, NO, YES};
use crate::files::Source;
use crate::given::Given;

/// The program reads this much of a file at most, one byte more than it accepts.
const READ: usize = 65537;

/// The slots of the program's work buffer of 65,520 bytes.
const SLOTS: u16 = (65520 / SLOT_BYTES) as u16;

/// The program's answer on the two files, given with their operands' names, and the bound. Of a Hanoi text it gets the automaton file
/// that the kernel makes.
pub fn answer([first, offer]: [(Source, &'static str); 2], bound: u64) -> Result<Answer, Failure> {
    let read = |(source, operand)| Given::read_front(source, operand, READ);
    let (first, offer) = (read(first)?, read(offer)?);
    let program = program().map_err(|error| Failure::File(format!("cannot find the program listing: {error}")))?;
    let line = run(&program, [&first.bytes, &offer.bytes], bound)
        .map_err(|error| Failure::File(format!("cannot run {}: {error}", program.display())))?;
    let answer = read_line(line.trim_end())
        .ok_or_else(|| Failure::File(format!("the program listing printed '{}'", line.trim_end())))?;
    Ok(told_beside(answer.on(&[&first, &offer])))
}

/// The answer with what is said besides on standard error, since the line is fixed.
fn told_beside(mut answer: Answer) -> Answer {
    let lines = [mem::take(&mut answer.note)]
        .into_iter()
        .chain(mem::take(&mut answer.besides));
    answer.note = lines.filter(|line| !line.is_empty()).collect::<Vec<_>>().join("\n");
    answer
}

/// The program: the one that EDITION_LISTING names, or the one that is installed beside this program.
fn program() -> io::Result<PathBuf> {
    match env::var_os("EDITION_LISTING") {
        Some(path) => Ok(path.into()),
        None => env::current_exe().map(|own| own.with_file_name("listing")),
    }
}

/// What the program prints in a folder of its own; its input is one byte, the bound.
///
/// A bound above 255 stands as 255: every bound above 14 is answered alike.
fn run(program: &Path, [first, offer]: [&[u8]; 2], bound: u64) -> io::Result<String> {
    let folder = Folder::new()?;
    fs::write(folder.0.join("first.ba"), first)?;
    fs::write(folder.0.join("offer.ba"), offer)?;
    let mut command = Command::new(program);
    let mut running = command
        .current_dir(&folder.0)
        .stdin(Stdio::piped())
        .stdout(Stdio::piped())
        .spawn()?;
    if let Some(mut input) = running.stdin.take() {
        match input.write_all(&[bound.min(255) as u8]) {
            // A program that does not read its input is judged by its line.
            Err(error) if error.kind() != io::ErrorKind::BrokenPipe => return Err(error),
            _ => (),
        }
    }
    let output = running.wait_with_output()?;
    String::from_utf8(output.stdout).map_err(|error| io::Error::new(io::ErrorKind::InvalidData, error))
}

/// A temporary folder that is removed with its contents.
struct Folder(PathBuf);

impl Folder {
    fn new() -> io::Result<Folder> {
        let mut tries = (0..100).map(|number| env::temp_dir().join(format!("edition-{}-{number}", process::id())));
        let mut made = tries.by_ref().map(|path| fs::create_dir(&path).map(|()| Folder(path)));
        made.find(|result| !matches!(result, Err(error) if error.kind() == io::ErrorKind::AlreadyExists))
            .unwrap_or_else(|| Err(io::ErrorKind::AlreadyExists.into()))
    }
}

impl Drop for Folder {
    fn drop(&mut self) {
        // A folder that stays behind does no harm, and the answer stands without it.
        let _ = fs::remove_dir_all(&self.0);
    }
}

/// The answer of a line; `None` for a line that the program does not print.
fn read_line(line: &str) -> Option<Answer> {
    let words: Vec<&str> = line.split(' ').collect();
    match words[..] {
        ["taken", ..] => walked(YES, "taken", line, &words),
        ["forward", ..] => walked(NO, "forward", line, &words),
        ["back", ..] => walked(NO, "back", line, &words),
        ["refused", number] => Some(refusal(line, Refusal::from_number(number.parse().ok()?)?)),
        ["long"] => {
            let mut answer = Answer::new(FAILED, "long", line.into()).with("line", Value::Text(line.into()));
            answer.note = "a file has more than 65,536 bytes".into();
            Some(answer)
        }
        _ => None,
    }
}

/// The answer of a line with walks: outcome, edition, states, first states, percent, the two counts and the word.
fn walked(status: u8, kind: &'static str, line: &str, words: &[&str]) -> Option<Answer> {
    let [_, edition, "states", states, "of", first, "saved", saved, "walks", forward, back, ref rest @ ..] = *words
    else {
        return None;
    };
    let mut answer = Answer::new(status, kind, line.into()).with("line", Value::Text(line.into()));
    let numbers = [
        ("edition", edition),
        ("states", states),
        ("first_states", first),
        ("saved", saved),
        ("forward", forward),
    ];
    for (name, number) in numbers {
        answer = answer.number(name, number.parse::<u64>().ok()?);
    }
    answer = answer.with(
        "back",
        if back == "-" {
            Value::Null
        } else {
            Value::Number(back.parse().ok()?)
        },
    );
    match rest {
        [] => Some(answer),
        ["word", letters @ ..] => {
            let letters: Option<Vec<u64>> = letters.iter().map(|letter| letter.parse().ok()).collect();
            Some(answer.with("word", Value::numbers(&letters?)))
        }
        _ => None,
    }
}

/// The answer of a refusal. The line is fixed, so what to do about it is said beside it.
fn refusal(line: &str, refusal: Refusal) -> Answer {
    let answer = match refusal {
        Refusal::Slots { walk, .. } => {
            let advice = "keep the entry in a STORE: `./edition open` and `./edition offer` walk with 4,096 slots";
            advised(&Refusal::Slots { walk, slots: SLOTS }, advice.into())
        }
        other => refused(&other),
    };
    let mut answer = answer.with("line", Value::Text(line.into()));
    answer.note = mem::replace(&mut answer.text, line.into());
    answer
}
