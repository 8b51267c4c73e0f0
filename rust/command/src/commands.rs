//! The commands: each reads its files, asks the kernel, and gives an answer.

use edition::lag::Graph;
use edition::slots::{self, Slot};
use edition::{Automaton, Buffers, Entry, Held, Offer, Outcome, Refusal, MAX_SLOTS};
use json::Value;

use crate::answer::{spelled, Answer, Failure, NO, YES};
use crate::arguments::{Arguments, Form};
use crate::given::Given;
use crate::hanoi::{extra, print};
use crate::store::Store;
use crate::{dot, hanoi, listing, never, out};

/// `listing FIRST OFFER BOUND`.
pub fn list(arguments: &Arguments) -> Result<Answer, Failure> {
    let bound = arguments.bound(3)?;
    listing::answer([(arguments.source(1), "FIRST"), (arguments.source(2), "OFFER")], bound)
}

/// `contain FIRST SECOND BOUND`.
pub fn contain(arguments: &Arguments) -> Result<Answer, Failure> {
    let bound = arguments.bound(3)?;
    let (first, second) = (arguments.given(1, "FIRST")?, arguments.given(2, "SECOND")?);
    let result = contained(arguments, [&first.bytes, &second.bytes], bound);
    Ok(result.unwrap_or_else(Failure::answer).on(&[&first, &second]))
}

fn contained(arguments: &Arguments, files: [&[u8]; 2], bound: u64) -> Result<Answer, Failure> {
    let slots = arguments
        .slots
        .map_or(MAX_SLOTS, |slots| slots.min(MAX_SLOTS as u64) as usize);
    let mut buffers = Buffers::with_slots(slots);
    let (count, word) = match buffers.contain(files[0], files[1], bound)? {
        Outcome::Contained { count } => (count, None),
        Outcome::Differs { count, word } => (count, Some(word.to_vec())),
    };
    let mut answer = match &word {
        None => Answer::new(YES, "contained", format!("contained: {count} vertices")).number("count", count),
        Some(word) => Answer::new(NO, "differs", format!("differs: place {count}, {}", spelled(word)))
            .number("count", count)
            .with("word", Value::numbers(word)),
    };
    if arguments.form() == Form::Dot {
        let slots = slots::of_work(buffers.work(), count);
        answer.text = walk_picture(files, bound as u8, &slots, word.as_deref())?;
    }
    Ok(answer)
}

/// The picture of a walk that the kernel has made; so the bound is at most 14.
fn walk_picture(files: [&[u8]; 2], bound: u8, slots: &[Slot], word: Option<&[u8]>) -> Result<String, Failure> {
    let (left, right) = (Automaton::from_file(files[0])?, Automaton::from_file(files[1])?);
    let graph = Graph::of_walk([&left, &right], bound, slots, word)
        .ok_or_else(|| Failure::File("no picture: its edges do not fit the kernel's walk".into()))?;
    Ok(dot::graph(&graph, right.states()))
}

/// `open STORE FILE`.
pub fn open(arguments: &Arguments) -> Result<Answer, Failure> {
    let file = arguments.given(2, "FILE")?;
    Ok(opened(arguments, &file.bytes)
        .unwrap_or_else(Failure::answer)
        .on(&[&file]))
}

fn opened(arguments: &Arguments, file: &[u8]) -> Result<Answer, Failure> {
    let store = Store::at(arguments.path(1))?.lock_or_make(arguments.source(2))?;
    let mut entry = store.entry_or_fresh()?;
    entry.open(file)?;
    store.replace(&entry)?;
    let held = held(&entry)?;
    let text = format!("opened: edition {}, {} states", held.edition, held.automaton.states());
    Ok(Answer::new(YES, "opened", text)
        .number("edition", held.edition)
        .number("states", held.automaton.states())
        .replacing(arguments.path(1)))
}

/// `offer STORE FILE BOUND`.
pub fn offer(arguments: &Arguments) -> Result<Answer, Failure> {
    let bound = arguments.bound(3)?;
    let file = arguments.given(2, "FILE")?;
    let result = offered(arguments, &file.bytes, bound);
    Ok(result.unwrap_or_else(Failure::answer).on(&[&file]))
}

fn offered(arguments: &Arguments, file: &[u8], bound: u64) -> Result<Answer, Failure> {
    let store = Store::at(arguments.path(1))?.lock(arguments.source(2))?;
    let mut entry = store.entry()?;
    let mut buffers = Buffers::largest();
    match buffers.offer(&mut entry, file, bound)? {
        Offer::Taken { forward, back } => {
            store.replace(&entry)?;
            Ok(taken(&held(&entry)?, forward, back).replacing(arguments.path(1)))
        }
        Offer::Forward { forward, word } => Ok(turned_down("forward", (forward, None), word)),
        Offer::Back { forward, back, word } => Ok(turned_down("back", (forward, Some(back)), word)),
    }
}

fn taken(held: &Held, forward: u16, back: u16) -> Answer {
    let (edition, states, first) = (held.edition, held.automaton.states(), held.first_states);
    let text = format!("taken: edition {edition}, states {states} of {first}, walks {forward} {back}");
    Answer::new(YES, "taken", text)
        .number("edition", edition)
        .number("states", states)
        .number("first_states", first)
        .number("forward", forward)
        .number("back", back)
}

/// The answer of an offer that is not taken: the walk that found a word, the walks' counts, the word.
fn turned_down(walk: &'static str, (forward, back): (u16, Option<u16>), word: &[u8]) -> Answer {
    let (shown, counts) = match back {
        None => (
            "the held automaton has a run on it that the offer does not follow",
            format!("walk {forward}"),
        ),
        Some(back) => (
            "the offer has a run on it that the held automaton does not follow",
            format!("walks {forward} {back}"),
        ),
    };
    let text = format!(
        "{walk}: {counts}, {}\n{shown} within the bound; the entry is unchanged",
        spelled(word)
    );
    Answer::new(NO, walk, text)
        .number("forward", forward)
        .with("back", back.map_or(Value::Null, |back| Value::Number(back.into())))
        .with("word", Value::numbers(word))
}

/// `verdict STORE STEM LOOP`.
pub fn verdict(arguments: &Arguments) -> Result<Answer, Failure> {
    let (stem, cycle) = (arguments.letters("STEM", 2)?, arguments.letters("LOOP", 3)?);
    let entry = Store::at(arguments.path(1))?.entry()?;
    Ok(match entry.verdict(&stem, &cycle)? {
        true => Answer::new(YES, "yes", "yes: the held automaton accepts the word".into()),
        false => Answer::new(NO, "no", "no: the held automaton does not accept the word".into()),
    })
}

/// `write FILE [OUT]`.
pub fn write(arguments: &Arguments) -> Result<Answer, Failure> {
    match Given::of(arguments.source(1).whole()?, "FILE") {
        Ok(file) => Ok(put(arguments, edition::write(&file.bytes)).on(&[&file])),
        Err(failure) => Ok(put(arguments, Err(failure))),
    }
}

/// `hanoi TEXT [OUT]`.
pub fn hanoi(arguments: &Arguments) -> Result<Answer, Failure> {
    let text = arguments.source(1).whole()?;
    if !arguments.drop_extra {
        return Ok(put(arguments, hanoi::file_of(&text, "TEXT")));
    }
    let extras = extra::find(&text);
    let mut answer = put(arguments, hanoi::file_of_rest(&extra::without(&text, &extras), "TEXT"));
    answer.besides.extend(hanoi::dropped_lines(&extras, &text));
    Ok(answer.with("dropped", hanoi::dropped_values(&extras, &text)))
}

/// Puts a file into OUT, or where there is none onto standard output: nothing else may stand there, so a refusal is told beside it.
fn put(arguments: &Arguments, written: Result<Vec<u8>, impl Into<Failure>>) -> Answer {
    let written = written.map_err(Into::into);
    if arguments.operands() == 2 {
        return replaced(arguments, written).unwrap_or_else(Failure::answer);
    }
    match written {
        Ok(bytes) => Answer::new(YES, "written", String::new())
            .number("length", bytes.len() as u64)
            .with("bytes", Value::Text(hexadecimal(&bytes)))
            .giving(bytes),
        Err(failure) => failure.answer().giving(Vec::new()),
    }
}

fn replaced(arguments: &Arguments, written: Result<Vec<u8>, Failure>) -> Result<Answer, Failure> {
    let (bytes, place) = (written?, arguments.path(2));
    out::replace(place, &bytes, arguments.source(1))?;
    let text = format!("written: {} bytes", bytes.len());
    Ok(Answer::new(YES, "written", text)
        .number("length", bytes.len() as u64)
        .replacing(place))
}

fn hexadecimal(bytes: &[u8]) -> String {
    bytes.iter().map(|byte| format!("{byte:02x}")).collect()
}

/// `show FILE|STORE`. What comes from standard input is no STORE.
pub fn show(arguments: &Arguments) -> Result<Answer, Failure> {
    let bytes = arguments.source(1).whole()?;
    if !arguments.is_input(1) && Entry::is_meant(&bytes) {
        return show_entry(arguments, &bytes);
    }
    let file = Given::of(bytes, "FILE")?;
    Ok(show_file(arguments, &file).unwrap_or_else(Failure::answer).on(&[&file]))
}

fn show_file(arguments: &Arguments, file: &Given) -> Result<Answer, Failure> {
    let automaton = Automaton::from_file(&file.bytes)?;
    let fixed = !file.is_text && edition::write(&file.bytes)? == file.bytes;
    let order = if fixed { "\nfixed form: yes" } else { "\nfixed form: no" };
    let answer = Answer::new(YES, "automaton", described(&automaton, order)).with("fixed", Value::Truth(fixed));
    shown(answer, &automaton, arguments)
}

fn show_entry(arguments: &Arguments, bytes: &[u8]) -> Result<Answer, Failure> {
    match Entry::from_bytes(bytes)?.held() {
        None if arguments.hoa || matches!(arguments.form(), Form::Dot | Form::Never) => Err(Refusal::Empty.into()),
        None => Ok(Answer::new(YES, "empty", "entry: empty".into())),
        Some(held) => {
            let Held {
                edition, first_states, ..
            } = held;
            let automaton = described(&held.automaton, "");
            let text = format!("entry: edition {edition}, first edition of {first_states} states\n{automaton}");
            let answer = Answer::new(YES, "entry", text)
                .number("edition", edition)
                .number("first_states", first_states);
            shown(answer, &held.automaton, arguments)
        }
    }
}

/// The answer with the automaton's fields; where another form is asked for, that is its text.
fn shown(mut answer: Answer, automaton: &Automaton, arguments: &Arguments) -> Result<Answer, Failure> {
    match arguments.form() {
        Form::Dot => answer.text = dot::automaton(automaton),
        Form::Never => answer.text = never::claim(automaton)?,
        Form::Hoa => answer.text = print::text(automaton)?,
        Form::Json if arguments.hoa => answer = answer.with("hoa", Value::Text(print::text(automaton)?)),
        Form::Text | Form::Json => (),
    }
    let transitions = automaton
        .transitions()
        .map(|(from, letter, to)| Value::numbers(&[from, letter, to]));
    Ok(answer
        .number("states", automaton.states())
        .number("letters", automaton.letters())
        .number("initial", automaton.initial())
        .with("accepting", Value::numbers(&accepting(automaton)))
        .with("dead", Value::numbers(&automaton.dead_states()))
        .with("transitions", Value::List(transitions.collect())))
}

fn accepting(automaton: &Automaton) -> Vec<u8> {
    automaton.accepting().collect()
}

/// The automaton in words, a line for each transition; what else there is to say stands before these.
fn described(automaton: &Automaton, besides: &str) -> String {
    let list = |states: Vec<u8>| match states.is_empty() {
        true => "none".into(),
        false => states.iter().map(u8::to_string).collect::<Vec<_>>().join(" "),
    };
    let transitions: Vec<String> = automaton
        .transitions()
        .map(|(from, letter, to)| format!("\n{from} on {letter} to {to}"))
        .collect();
    let dead = automaton.dead_states();
    let refused = if dead.is_empty() {
        ""
    } else {
        " (contain, open and offer refuse this automaton with 6)"
    };
    format!(
        "automaton: {} states, {} letters, {} transitions\ninitial: {}\naccepting: {}\ndead: {}{refused}{besides}{}",
        automaton.states(),
        automaton.letters(),
        transitions.len(),
        automaton.initial(),
        list(accepting(automaton)),
        list(dead),
        transitions.concat()
    )
}

/// What the entry holds after a call that opened it or took an offer.
fn held(entry: &Entry) -> Result<Held, Failure> {
    entry.held().ok_or(Failure::Refused(Refusal::Empty))
}
