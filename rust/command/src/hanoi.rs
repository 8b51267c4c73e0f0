//! Hanoi texts. The kernel makes automaton files of them; what is found in them besides is for display, and for taking out what has no effect.

pub mod extra;
mod fault;
mod place;
pub mod print;
mod tokens;

use edition::Refusal;
use json::Value;

use crate::answer::{advised, Answer};
use extra::Extra;
use fault::{Fault, ABORTED};
use place::Place;

/// The advice on a file that does not begin as a text.
const OTHER_FILE: &str = "give a text that begins with HOA: v1; an automaton file is for `./edition write`";

/// The automaton file that the kernel makes of the text, which is the operand of this name, or the answer of its refusal.
pub fn file_of(text: &[u8], operand: &'static str) -> Result<Vec<u8>, Box<Answer>> {
    edition::from_hanoi(text).map_err(|refusal| Box::new(refused(&refusal, text, operand, &extra::find(text))))
}

/// As `file_of`, of what is left of a text without its extras: no advice is to take out more.
pub fn file_of_rest(rest: &[u8], operand: &'static str) -> Result<Vec<u8>, Box<Answer>> {
    edition::from_hanoi(rest).map_err(|refusal| Box::new(refused(&refusal, rest, operand, &[])))
}

/// The answer of a text that the kernel refuses, of which these extras may be taken out: the place that looks wrong, if one is found, stands
/// before the advice.
fn refused(refusal: &Refusal, text: &[u8], operand: &'static str, extras: &[Extra]) -> Answer {
    let fault = fault::find(text).filter(|fault| fault.number == refusal.number());
    let mut answer = advised(refusal, advice(refusal, text, fault.as_ref(), extras));
    if let Some(fault) = fault {
        let Place { line, column } = Place::of(text, fault.at);
        let place = format!("\nwhere: {operand}, line {line}, column {column}: {}", fault.what);
        let end = answer.text.find('\n').unwrap_or(answer.text.len());
        answer.text.insert_str(end, &place);
        let numbers = [("line", line), ("column", column)].map(|(name, number)| (name, Value::Number(number as u64)));
        let fields = numbers.into_iter().chain([("what", Value::Text(fault.what))]);
        answer = answer.with("place", Value::Object(fields.collect()));
    }
    answer
}

/// What to do about a refused text, of which these extras may be taken out.
fn advice(refusal: &Refusal, text: &[u8], fault: Option<&Fault>, extras: &[Extra]) -> String {
    let own = match fault.and_then(|fault| fault.advice) {
        _ if !edition::is_hanoi(text) => OTHER_FILE.into(),
        Some(advice) => advice.into(),
        None => refusal.advice(),
    };
    if extras.is_empty() || refusal.number() != 17 || own == ABORTED {
        return own;
    }
    let dropping = format!(
        "`./edition hanoi --drop-extra TEXT OUT` takes out what has no effect on the automaton's words, here {}",
        listed(extras)
    );
    match fault.is_some_and(|fault| extras.iter().any(|extra| extra.range.contains(&fault.at))) {
        true => dropping,
        false => format!("{own}; {dropping}"),
    }
}

/// The extras by what they are, each with its first line; of many kinds the first ones.
fn listed(extras: &[Extra]) -> String {
    const MOST: usize = 8;
    let mut kinds: Vec<(&str, usize, usize)> = Vec::new();
    for extra in extras {
        match kinds.iter().position(|(what, ..)| *what == extra.what) {
            Some(place) => kinds[place].2 += 1,
            None if kinds.len() < MOST => kinds.push((&extra.what, extra.line, 1)),
            None => (),
        }
    }
    let told: usize = kinds.iter().map(|(.., count)| count).sum();
    let shown = kinds.iter().map(|(what, line, count)| match count {
        1 => format!("{what} (line {line})"),
        _ => format!("{what} (line {line} and others)"),
    });
    let more = (told < extras.len()).then(|| format!("{} more", extras.len() - told));
    shown.chain(more).collect::<Vec<_>>().join(", ")
}

/// The lines that say what was taken out of the text.
pub fn dropped_lines(extras: &[Extra], text: &[u8]) -> Vec<String> {
    let line = |extra: &Extra| format!("taken out of line {}: {}", extra.line, extra.shown(text));
    extras.iter().map(line).collect()
}

/// What was taken out of the text, for programs.
pub fn dropped_values(extras: &[Extra], text: &[u8]) -> Value {
    let value = |extra: &Extra| {
        Value::Object(vec![
            ("line", Value::Number(extra.line as u64)),
            (
                "text",
                Value::Text(String::from_utf8_lossy(&text[extra.range.clone()]).into_owned()),
            ),
        ])
    };
    Value::List(extras.iter().map(value).collect())
}
