//! The program behind `./edition`: asks the proved checker at a terminal. All answers are the kernel's.

#![forbid(unsafe_code)]

mod answer;
mod arguments;
mod commands;
mod dot;
mod files;
mod given;
mod hanoi;
mod help;
mod listing;
mod never;
mod out;
mod replace;
mod store;

use std::env;
use std::ffi::OsString;
use std::io::{self, Write};
use std::mem;
use std::ops::RangeInclusive;
use std::process::ExitCode;

use answer::{Answer, Failure, FAILED, REFUSED, REPLACED, YES};
use arguments::{asks_json, usage, Arguments, Form};
use help::{Choice, Command, COMMANDS, NO_FILES, OUT, STORE};
use json::Value;

fn main() -> ExitCode {
    let line: Vec<OsString> = env::args_os().skip(1).collect();
    let json = asks_json(&line);
    let (name, form, result) = match Arguments::parse(line) {
        Ok(arguments) => (
            arguments.name().map(String::from),
            arguments.form(),
            answered(&arguments),
        ),
        Err(failure) => (None, if json { Form::Json } else { Form::Text }, Err(failure)),
    };
    let answer = result.unwrap_or_else(Failure::answer);
    let (status, untold) = (answer.status, untold(&answer));
    let Err(error) = print(answer, name.as_deref(), form) else {
        return ExitCode::from(status);
    };
    let (status, done) = untold;
    // Where standard error cannot be written either, the status alone says it.
    let _ = writeln!(io::stderr(), "{done}cannot write the answer: {error}");
    ExitCode::from(status)
}

/// The status, and what is said first, where the answer cannot be written.
fn untold(answer: &Answer) -> (u8, String) {
    match &answer.replaced {
        Some(file) => (
            REPLACED,
            format!("the new {} is in place ({}), but ", file.display(), answer.text),
        ),
        None if answer.status == REPLACED => (REPLACED, format!("{}; besides, ", answer.text)),
        None => (FAILED, String::new()),
    }
}

/// The answer of the command that the arguments name.
fn answered(arguments: &Arguments) -> Result<Answer, Failure> {
    if arguments.version {
        return Ok(version());
    }
    let Some(name) = arguments.words.first() else {
        return if arguments.help {
            Ok(helped(help::all()))
        } else {
            Err(Failure::Usage(help::all()))
        };
    };
    let command = COMMANDS.iter().find(|command| name == command.name).ok_or_else(|| {
        let names = COMMANDS.map(|command| command.name).join(", ");
        usage(&format!(
            "there is no command {}; the commands are {names}",
            name.to_string_lossy()
        ))
    })?;
    if arguments.help {
        return Ok(helped(command.help()));
    }
    check(command, arguments).map_err(|fault| usage(&format!("{fault}\nusage: {}", command.usage())))?;
    (command.run)(arguments)
}

fn helped(text: String) -> Answer {
    Answer::new(YES, "help", text.clone()).with("text", Value::Text(text))
}

fn version() -> Answer {
    let text = format!("edition {}", edition::VERSION);
    Answer::new(YES, "version", text).with("version", Value::Text(edition::VERSION.into()))
}

/// What is wrong with the number of operands, with the options, with a name or with standard input as a file, if anything.
fn check(command: &Command, arguments: &Arguments) -> Result<(), String> {
    let (given, wanted) = (arguments.operands(), command.counts());
    if !wanted.contains(&given) {
        return Err(format!("{} takes {}, not {given}", command.name, counted(&wanted)));
    }
    let mut given = Choice::ALL.into_iter().filter(|choice| choice.is_given(arguments));
    if let Some(choice) = given.find(|choice| !command.takes.contains(choice)) {
        return Err(format!("{} {}", command.name, choice.untaken()));
    }
    check_names(command, arguments)?;
    check_input(command, arguments)
}

/// So many operands, in words: `3 operands`, `1 or 2 operands`.
fn counted(counts: &RangeInclusive<usize>) -> String {
    let counts: Vec<String> = counts.clone().map(|count| count.to_string()).collect();
    format!("{} operands", counts.join(" or "))
}

/// What is wrong with the name of a STORE or an OUT, if anything: an empty one is none.
fn check_names(command: &Command, arguments: &Arguments) -> Result<(), String> {
    let named = (1..=arguments.operands()).zip(command.operands);
    let mut replaced = named.filter(|(_, name)| [STORE, OUT].contains(name));
    match replaced.find(|&(place, _)| arguments.operand(place).is_empty()) {
        Some((_, name)) => Err(format!(
            "{} is the name of a file, and '' is none",
            name.trim_matches(['[', ']'])
        )),
        None => Ok(()),
    }
}

/// What is wrong with standard input as a file, if anything: it is read once, and replaces no STORE and no OUT.
fn check_input(command: &Command, arguments: &Arguments) -> Result<(), String> {
    let named = (1..=arguments.operands()).zip(command.operands);
    let files = named.filter(|(_, name)| !NO_FILES.contains(name));
    let input: Vec<&str> = files
        .filter_map(|(place, &name)| arguments.is_input(place).then_some(name))
        .collect();
    match input[..] {
        [STORE, ..] => Err("STORE is the name of a file, and - is standard input; ./- is a file of that name".into()),
        [.., OUT] => Err(
            "OUT is the name of a file, and - is standard input; without OUT the file goes to standard output".into(),
        ),
        [_, _, ..] => Err("standard input is read once: give one - only".into()),
        _ => Ok(()),
    }
}

/// Prints the answer. For people, what failed goes to standard error, and so does a refusal where another form was asked for. Where standard
/// output has bytes or another form, what is said besides goes to standard error too.
fn print(mut answer: Answer, command: Option<&str>, form: Form) -> io::Result<()> {
    if form == Form::Json {
        return writeln!(io::stdout(), "{}", answer.json(command));
    }
    let failed = matches!(answer.kind, "usage" | "failed" | "replaced");
    let aside = failed || (form != Form::Text && answer.status == REFUSED);
    let besides = mem::take(&mut answer.besides).join("\n");
    let is_output_taken = answer.bytes.is_some() || (form != Form::Text && !aside);
    let (beside, below) = match is_output_taken {
        true => (joined(&answer.note, &besides), ""),
        false => (answer.note, besides.as_str()),
    };
    if !beside.is_empty() {
        writeln!(io::stderr(), "{beside}")?;
    }
    if let Some(bytes) = answer.bytes {
        let mut out = io::stdout().lock();
        return out.write_all(&bytes).and_then(|()| out.flush());
    }
    let text = joined(answer.text.trim_end(), below);
    if aside {
        writeln!(io::stderr(), "{text}")
    } else {
        writeln!(io::stdout(), "{text}")
    }
}

/// Two texts on lines of their own, of which one may be empty.
fn joined(first: &str, second: &str) -> String {
    let texts = [first, second].into_iter().filter(|text| !text.is_empty());
    texts.collect::<Vec<_>>().join("\n")
}
