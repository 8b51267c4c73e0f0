//! The command line, taken apart.

use std::ffi::{OsStr, OsString};
use std::path::Path;

use crate::answer::Failure;
use crate::files::Source;
use crate::given::Given;

/// The form in which the answer is wanted.
#[derive(Clone, Copy, PartialEq, Eq)]
pub enum Form {
    Text,
    Json,
    Dot,
    Never,
    Hoa,
}

/// The operand that stands for standard input.
const INPUT: &str = "-";

/// What is said of two forms at once.
const FORMS: &str =
    "--json, --dot, --never and --hoa ask for different forms of one answer: give one of them, or --hoa with --json";

/// The words of the command line, options taken out.
#[derive(Default)]
pub struct Arguments {
    /// The command's name and its operands.
    pub words: Vec<OsString>,
    pub help: bool,
    pub version: bool,
    pub slots: Option<u64>,
    /// Whether the automaton is asked for as a Hanoi text.
    pub hoa: bool,
    /// Whether what has no effect on the automaton is to be taken out of a Hanoi text.
    pub drop_extra: bool,
    form: Option<Form>,
}

impl Arguments {
    /// Takes the options out, wherever they stand before a `--`.
    pub fn parse(line: Vec<OsString>) -> Result<Arguments, Failure> {
        let mut arguments = Arguments::default();
        let mut rest = line.into_iter();
        while let Some(word) = rest.next() {
            match word.to_str() {
                Some("--") => arguments.words.extend(rest.by_ref()),
                Some("--slots") => {
                    let value = rest.next().ok_or_else(|| usage("--slots needs a number after it"))?;
                    arguments.slots = Some(number("--slots", &value)?);
                }
                Some(option) if option.len() > 1 && option.starts_with('-') => arguments.option(option)?,
                _ => arguments.words.push(word),
            }
        }
        match arguments.hoa && matches!(arguments.form, Some(Form::Dot | Form::Never)) {
            true => Err(usage(FORMS)),
            false => Ok(arguments),
        }
    }

    fn option(&mut self, option: &str) -> Result<(), Failure> {
        match option {
            "--json" => self.ask(Form::Json)?,
            "--dot" => self.ask(Form::Dot)?,
            "--never" => self.ask(Form::Never)?,
            "--hoa" => self.hoa = true,
            "--drop-extra" => self.drop_extra = true,
            "--help" | "-h" => self.help = true,
            "--version" => self.version = true,
            _ => match option.strip_prefix("--slots=") {
                Some(value) => self.slots = Some(number("--slots", OsStr::new(value))?),
                None => return Err(usage(&format!("there is no option {option}"))),
            },
        }
        Ok(())
    }

    fn ask(&mut self, form: Form) -> Result<(), Failure> {
        match self.form.replace(form) {
            Some(other) if other != form => Err(usage(FORMS)),
            _ => Ok(()),
        }
    }

    /// The form of the answer; with --json and --hoa it is JSON.
    pub fn form(&self) -> Form {
        self.form.unwrap_or(if self.hoa { Form::Hoa } else { Form::Text })
    }

    /// The command's name.
    pub fn name(&self) -> Option<&str> {
        self.words.first().and_then(|word| word.to_str())
    }

    /// The number of operands.
    pub fn operands(&self) -> usize {
        self.words.len() - 1
    }

    /// The operand of this place, counted from 1. The number of operands has been checked.
    pub fn operand(&self, place: usize) -> &OsStr {
        &self.words[place]
    }

    /// The operand as a path.
    pub fn path(&self, place: usize) -> &Path {
        Path::new(self.operand(place))
    }

    /// Whether the operand stands for standard input.
    pub fn is_input(&self, place: usize) -> bool {
        self.operand(place) == INPUT
    }

    /// The operand, which is the one of this name, as an automaton file, or as a Hanoi text that one is made of.
    pub fn given(&self, place: usize, name: &'static str) -> Result<Given, Failure> {
        Given::read(self.source(place), name)
    }

    /// Where the operand, an automaton file or a Hanoi text, comes from.
    pub fn source(&self, place: usize) -> Source<'_> {
        match self.is_input(place) {
            true => Source::Input,
            false => Source::File(self.path(place)),
        }
    }

    /// The operand as a bound.
    pub fn bound(&self, place: usize) -> Result<u64, Failure> {
        number("BOUND", self.operand(place))
    }

    /// The operand as a word: letters in decimal with commas between them; the empty word is empty.
    ///
    /// A letter above 255 stands as 255. No automaton has either, so the answer is the same.
    pub fn letters(&self, name: &str, place: usize) -> Result<Vec<u8>, Failure> {
        let text = self.operand(place);
        if text.is_empty() {
            return Ok(Vec::new());
        }
        let text = text.to_str().ok_or_else(|| not_letters(name))?;
        let letters = text.split(',').map(|letter| number(name, OsStr::new(letter)));
        letters
            .map(|letter| {
                letter
                    .map(|number| number.min(255) as u8)
                    .map_err(|_| not_letters(name))
            })
            .collect()
    }
}

/// Whether the line asks for JSON: known even where the rest of it is wrong.
pub fn asks_json(line: &[OsString]) -> bool {
    line.iter()
        .take_while(|word| *word != "--")
        .any(|word| word == "--json")
}

pub fn usage(message: &str) -> Failure {
    Failure::Usage(message.into())
}

fn not_letters(name: &str) -> Failure {
    usage(&format!(
        "{name} is letters in decimal with commas between them, such as 0,1,1; '' is the empty word"
    ))
}

/// A number of decimal digits. One of 2^64 or more stands as the largest below it, which every limit refuses as well.
fn number(name: &str, text: &OsStr) -> Result<u64, Failure> {
    match text.to_str() {
        Some(digits) if !digits.is_empty() && digits.bytes().all(|byte| byte.is_ascii_digit()) => {
            Ok(digits.parse().unwrap_or(u64::MAX))
        }
        _ => Err(usage(&format!(
            "{name} is a number such as 1, not '{}'",
            text.to_string_lossy()
        ))),
    }
}
