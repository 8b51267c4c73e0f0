//! What the program answers, for people and for programs.

use std::mem;
use std::path::{Path, PathBuf};

use edition::{Argument, Refusal, Walk};
use json::Value;

use crate::given::Given;

/// Contained, taken, opened, yes, written, shown.
pub const YES: u8 = 0;
/// Differs, forward, back, no.
pub const NO: u8 = 1;
/// A refusal of the checker.
pub const REFUSED: u8 = 2;
/// Wrong use, a file that cannot be read or written, or an answer that cannot be written.
pub const FAILED: u8 = 3;
/// The STORE or OUT is replaced or made, and something failed after that: the folder could not be synced, or the answer could not be written.
pub const REPLACED: u8 = 4;

/// An answer: the exit status, its kind in plain English, a text for people, and fields for programs.
pub struct Answer {
    pub status: u8,
    pub kind: &'static str,
    pub text: String,
    /// What is said besides, on standard error, where the text is fixed.
    pub note: String,
    /// Lines on what was read: below the text, or on standard error where standard output is for another form or for bytes.
    pub besides: Vec<String>,
    pub fields: Vec<(&'static str, Value)>,
    /// A file's bytes, which people get on standard output in place of the text.
    pub bytes: Option<Vec<u8>>,
    /// The STORE or OUT that the command has replaced or made.
    pub replaced: Option<PathBuf>,
}

impl Answer {
    pub fn new(status: u8, kind: &'static str, text: String) -> Answer {
        Answer {
            status,
            kind,
            text,
            note: String::new(),
            besides: Vec::new(),
            fields: Vec::new(),
            bytes: None,
            replaced: None,
        }
    }

    /// The answer of a command that has replaced or made this file.
    pub fn replacing(mut self, file: &Path) -> Answer {
        self.replaced = Some(file.into());
        self
    }

    /// The answer where standard output is for these bytes: the text is said beside them.
    pub fn giving(mut self, bytes: Vec<u8>) -> Answer {
        self.note = mem::take(&mut self.text);
        self.bytes = Some(bytes);
        self
    }

    /// The answer on these files, which says which of them are Hanoi texts.
    pub fn on(self, files: &[&Given]) -> Answer {
        let texts = files.iter().filter(|file| file.is_text).map(|file| file.operand);
        match self.status {
            FAILED => self,
            _ => self.on_texts(&texts.collect::<Vec<_>>()),
        }
    }

    /// The answer on Hanoi texts, if there are any: these operands.
    pub fn on_texts(mut self, operands: &[&'static str]) -> Answer {
        let texts = match operands {
            [] => return self,
            [_] => "a Hanoi text",
            _ => "Hanoi texts",
        };
        self.besides.push(format!("read as {texts}: {}", operands.join(", ")));
        let names = operands.iter().map(|&operand| Value::Text(operand.into()));
        self.with("hanoi", Value::List(names.collect()))
    }

    /// The answer with one more field.
    pub fn with(mut self, name: &'static str, value: Value) -> Answer {
        self.fields.push((name, value));
        self
    }

    /// The answer with one more field that is a number.
    pub fn number(self, name: &'static str, number: impl Into<u64>) -> Answer {
        self.with(name, Value::Number(number.into()))
    }

    /// The answer as one JSON object.
    pub fn json(self, command: Option<&str>) -> Value {
        let command = command.map_or(Value::Null, |name| Value::Text(name.into()));
        let mut fields = vec![
            ("command", command),
            ("answer", Value::Text(self.kind.into())),
            ("status", Value::Number(self.status.into())),
        ];
        fields.extend(self.fields);
        Value::Object(fields)
    }
}

/// Why there is no other answer.
pub enum Failure {
    /// Wrong arguments.
    Usage(String),
    /// A file that cannot be read or written, or a form that the automaton does not have.
    File(String),
    /// A STORE or OUT that is replaced or made, and is perhaps not on the disk.
    Replaced(String),
    /// A refusal of the checker.
    Refused(Refusal),
    /// What is told whole already.
    Told(Box<Answer>),
}

impl From<Box<Answer>> for Failure {
    fn from(answer: Box<Answer>) -> Failure {
        Failure::Told(answer)
    }
}

impl From<Refusal> for Failure {
    fn from(refusal: Refusal) -> Failure {
        Failure::Refused(refusal)
    }
}

impl Failure {
    pub fn answer(self) -> Answer {
        let (status, kind, message) = match self {
            Failure::Usage(message) => (FAILED, "usage", message),
            Failure::File(message) => (FAILED, "failed", message),
            Failure::Replaced(message) => (REPLACED, "replaced", message),
            Failure::Refused(refusal) => return refused(&refusal),
            Failure::Told(answer) => return *answer,
        };
        Answer::new(status, kind, message.clone()).with("message", Value::Text(message))
    }
}

/// A refusal's answer: its number, what is wrong, and what to do about it.
pub fn refused(refusal: &Refusal) -> Answer {
    advised(refusal, refusal.advice())
}

/// As `refused`, with advice of the caller's own.
pub fn advised(refusal: &Refusal, advice: String) -> Answer {
    let text = format!("refused {}: {refusal}\nwhat to do: {advice}", refusal.number());
    let mut answer = Answer::new(REFUSED, "refused", text).number("number", refusal.number());
    match refusal.file() {
        Some(Argument::First) => answer = answer.number("file", 1u8),
        Some(Argument::Second) => answer = answer.number("file", 2u8),
        Some(Argument::Text) | None => (),
    }
    if let Some(walk) = refusal.walk() {
        let name = if walk == Walk::Forward { "forward" } else { "back" };
        answer = answer.with("walk", Value::Text(name.into()));
    }
    answer = match *refusal {
        Refusal::Slots { slots, .. } => answer.number("slots", slots),
        Refusal::Word { needed, .. } => answer.number("needed", needed),
        Refusal::Room { needed } => answer.number("needed", needed),
        _ => answer,
    };
    answer
        .with("reason", Value::Text(refusal.to_string()))
        .with("advice", Value::Text(advice))
}

/// A word for people: its letters in decimal after single spaces.
pub fn spelled(word: &[u8]) -> String {
    if word.is_empty() {
        return "the empty word".into();
    }
    let letters: Vec<String> = word.iter().map(u8::to_string).collect();
    format!("word {}", letters.join(" "))
}
