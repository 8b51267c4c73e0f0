//! Where a Hanoi text leaves the subset that the kernel reads, and what stands there: for display. The kernel decides, and what is found here
//! is shown only where its number is the kernel's.

use std::fmt;
use std::iter::Peekable;

use super::extra;
use super::tokens::{Kind, Token, Tokens};

/// A place where a text leaves the subset.
#[derive(Debug, PartialEq, Eq)]
pub struct Fault {
    /// The number of the refusal.
    pub number: u8,
    /// The byte at which it is seen.
    pub at: usize,
    /// What is wrong there.
    pub what: String,
    /// What to do about it, if there is more to say than the refusal does.
    pub advice: Option<&'static str>,
}

/// What to do about a text with `--ABORT--`, whatever else it has.
pub const ABORTED: &str = "run the translator again: it gave up, and this text is no whole automaton";

const VERSION: &str = "have the translator write version 1 of the format: HOA: v1";
const ORDER: &str = "write the header items HOA: v1, States, Start, AP, acc-name: Buchi (or leave this one out), Acceptance: 1 Inf(0), \
                     in this order and each only once";
const ON_STATES: &str =
    "have the translator make a Büchi automaton with acceptance on states, as `ltl2tgba -B -H` does: Acceptance: 1 \
                         Inf(0), and {0} behind the number of each accepting state";
const LABELS: &str = "have the translator write a label in front of every edge's target, as `ltl2tgba -B -H` does; labels on states and \
                      implicit labels are not read";
const BRANCHING: &str = "have the translator make an automaton with one initial state and one target for each edge";
const ALIASES: &str = "write out what each alias stands for; aliases are not read";
const NAMES: &str =
    "give AP its count and then that many names in quotes, of the bytes 20 to 7E without quotes and backslashes";
const PROPOSITIONS: &str = "use the numbers of AP's propositions in labels: they begin with 0 and are below AP's count";
const ONE: &str = "give one automaton in a text, and nothing but white space behind it";
const CAPITAL: &str = "an item or a property whose name begins with a capital may change what the automaton accepts: have the translator \
                       leave it out";
const ONCE: &str = "declare each state once, with all its edges behind it";
const DEPTH: &str = "write the label with at most 64 negations and parentheses around any one place";
const TOUCHING: &str = "put white space between it and what stands before it";
const FIRST_STATE: &str = "write `State:` and its number before the first edge";
const BODY: &str = "write nothing behind --BODY-- but states, their edges and --END--";
const LABEL: &str = "write the label with t, f, numbers of AP's propositions, !, &, | and parentheses";

/// What should stand at a place.
#[derive(Clone, Copy, PartialEq, Eq)]
enum Wanted {
    /// This word or sign.
    Word(&'static str),
    /// A number that says this.
    Number(&'static str),
    /// The name of a proposition.
    Name,
    /// `State:`, an edge, or the end of the body.
    Part,
    /// The number of a state that is declared.
    State,
    /// A label, or what follows `!`, `(`, `&` or `|` in one.
    Operand,
}

impl fmt::Display for Wanted {
    fn fmt(&self, f: &mut fmt::Formatter<'_>) -> fmt::Result {
        match self {
            Wanted::Word(word) => write!(f, "`{word}`"),
            Wanted::Number(said) => f.write_str(said),
            Wanted::Name => f.write_str("the name of a proposition"),
            Wanted::Part => f.write_str("`State:`, `[` or `--END--`"),
            Wanted::State => f.write_str("the number of a state"),
            Wanted::Operand => f.write_str("`t`, `f`, a proposition, `!` or `(`"),
        }
    }
}

/// The first fault of a text. One of the format in a text with `--ABORT--` is told with it, since that alone says what to do.
pub fn find(text: &[u8]) -> Option<Fault> {
    let mut reader = Reader {
        text,
        tokens: Tokens::of(text).peekable(),
        states: 0,
        propositions: 0,
        is_body: false,
        declared: Vec::new(),
    };
    let mut fault = reader.file().err()?;
    let mut tokens = Tokens::of(text).take_while(|token| !token.is("--END--"));
    let abort = tokens.find(|token| token.is("--ABORT--"));
    if let Some(abort) = abort.filter(|_| fault.number == 17) {
        fault.advice = Some(ABORTED);
        if abort.at > fault.at {
            fault.what += "; and `--ABORT--` stands further on";
        }
    }
    Some(fault)
}

/// Reads a text by the subset's rules, as far as it goes by them.
struct Reader<'a> {
    text: &'a [u8],
    tokens: Peekable<Tokens<'a>>,
    states: u64,
    propositions: u64,
    /// Whether it is behind `--BODY--`.
    is_body: bool,
    declared: Vec<u64>,
}

impl<'a> Reader<'a> {
    fn file(&mut self) -> Result<(), Fault> {
        self.header()?;
        self.is_body = true;
        while self.part()? {}
        match self.tokens.next() {
            Some(token) => Err(wrong(&token, "behind `--END--`", Some(ONE))),
            None => Ok(()),
        }
    }

    fn header(&mut self) -> Result<(), Fault> {
        self.words(&["HOA:", "v1", "States:"])?;
        let (states, token) = self.number(Wanted::Number("the number of states"))?;
        within((1..=32).contains(&states), 3, token, "States is 1 to 32")?;
        self.words(&["Start:"])?;
        let (start, token) = self.number(Wanted::Number("the initial state"))?;
        within(start < states, 3, token, "Start is below States")?;
        self.words(&["AP:"])?;
        let (propositions, token) = self.number(Wanted::Number("the number of propositions"))?;
        within(propositions <= 4, 18, token, "AP has at most 4 propositions")?;
        (self.states, self.propositions) = (states, propositions);
        for _ in 0..propositions {
            self.name()?;
        }
        if self.stands("acc-name:") {
            self.words(&["acc-name:", "Buchi"])?;
        }
        self.words(&["Acceptance:", "1", "Inf", "(", "0", ")", "--BODY--"])
    }

    /// Goes over a part of the body; false at its end.
    fn part(&mut self) -> Result<bool, Fault> {
        match self.tokens.peek().map(|token| token.bytes) {
            Some(b"--END--") => return self.words(&["--END--"]).map(|()| false),
            Some(b"State:") => self.state()?,
            Some(b"[") if !self.declared.is_empty() => self.edge()?,
            _ => return Err(self.unexpected(Wanted::Part)),
        }
        Ok(true)
    }

    fn state(&mut self) -> Result<(), Fault> {
        self.words(&["State:"])?;
        let (state, token) = self.number(Wanted::State)?;
        within(state < self.states, 4, token, "states are below States")?;
        if self.declared.contains(&state) {
            return Err(wrong(&token, "is declared a second time", Some(ONCE)));
        }
        self.declared.push(state);
        match self.tokens.peek() {
            Some(next) if next.is("{") => self.words(&["{", "0", "}"]),
            Some(next) if next.kind == Kind::Quoted => {
                let what = format!("the state name {}, which is not read", next.shown());
                Err(wrong_at(next.at, what, None))
            }
            _ => Ok(()),
        }
    }

    fn edge(&mut self) -> Result<(), Fault> {
        self.words(&["["])?;
        self.disjunction(0)?;
        self.words(&["]"])?;
        let (target, token) = self.number(Wanted::Number("the edge's target"))?;
        within(target < self.states, 4, token, "targets are below States")
    }

    fn disjunction(&mut self, depth: usize) -> Result<(), Fault> {
        self.conjunction(depth)?;
        while self.stands("|") {
            self.words(&["|"])?;
            self.conjunction(depth)?;
        }
        Ok(())
    }

    fn conjunction(&mut self, depth: usize) -> Result<(), Fault> {
        self.operand(depth)?;
        while self.stands("&") {
            self.words(&["&"])?;
            self.operand(depth)?;
        }
        Ok(())
    }

    /// Goes over an operand with so many negations and parentheses around it.
    fn operand(&mut self, depth: usize) -> Result<(), Fault> {
        let token = self.tokens.peek().copied();
        match token.map(|token| (token, token.bytes)) {
            Some((token, b"!" | b"(")) if depth == 64 => Err(wrong(&token, "inside 64 others", Some(DEPTH))),
            Some((_, b"!")) => {
                self.words(&["!"])?;
                self.operand(depth + 1)
            }
            Some((_, b"(")) => {
                self.words(&["("])?;
                self.disjunction(depth + 1)?;
                self.words(&[")"])
            }
            Some((_, b"t")) => self.words(&["t"]),
            Some((_, b"f")) => self.words(&["f"]),
            _ => self.proposition(),
        }
    }

    fn proposition(&mut self) -> Result<(), Fault> {
        let (proposition, token) = self.number(Wanted::Operand)?;
        match proposition < self.propositions {
            true => Ok(()),
            false => Err(wrong(&token, "is no proposition of AP", Some(PROPOSITIONS))),
        }
    }

    /// Whether the next token has these bytes.
    fn stands(&mut self, word: &str) -> bool {
        self.tokens.peek().is_some_and(|token| token.is(word))
    }

    /// Goes over these tokens.
    fn words(&mut self, words: &[&'static str]) -> Result<(), Fault> {
        words.iter().try_for_each(|word| match self.stands(word) {
            true => self.token(Wanted::Word(word)).map(drop),
            false => Err(self.unexpected(Wanted::Word(word))),
        })
    }

    /// Goes over a number: its value, or the largest that can be held where it is larger.
    fn number(&mut self, wanted: Wanted) -> Result<(u64, Token<'a>), Fault> {
        match self.tokens.peek() {
            Some(token) if token.kind == Kind::Number => (),
            _ => return Err(self.unexpected(wanted)),
        }
        let token = self.token(wanted)?;
        if token.bytes.len() > 1 && token.bytes[0] == b'0' {
            let what = "begins with 0, and a number of several digits may not";
            return Err(wrong(&token, what, None));
        }
        let value = token.shown().parse().unwrap_or(u64::MAX);
        Ok((value, token))
    }

    /// Goes over a proposition's name.
    fn name(&mut self) -> Result<(), Fault> {
        let token = match self.tokens.peek() {
            Some(token) if token.kind == Kind::Quoted => *token,
            _ => return Err(self.unexpected(Wanted::Name)),
        };
        match token.bytes.iter().position(|&byte| !is_name_byte(byte)) {
            Some(place) => Err(wrong_at(
                token.at + place,
                "a byte that no name has".into(),
                Some(NAMES),
            )),
            None => self.token(Wanted::Name).map(drop),
        }
    }

    /// Goes over the next token. A letter or digit does not stand right behind that of another token.
    fn token(&mut self, wanted: Wanted) -> Result<Token<'a>, Fault> {
        let token = self.tokens.next().ok_or_else(|| ends(self.text, wanted))?;
        let front = token.at.saturating_sub(1)..token.at + 1;
        match front.len() == 2 && self.text[front].iter().all(u8::is_ascii_alphanumeric) {
            true => Err(wrong(&token, "needs white space before it", Some(TOUCHING))),
            false => Ok(token),
        }
    }

    /// The fault of the next token, which may not stand here, or of the text's end.
    fn unexpected(&mut self, wanted: Wanted) -> Fault {
        let Some(token) = self.tokens.peek().copied() else {
            return ends(self.text, wanted);
        };
        let (what, advice) = match token.kind {
            Kind::Comment => ("a comment, which is not read".into(), None),
            Kind::Unfinished => ("a string or comment that does not end".into(), None),
            Kind::Alias => (format!("the alias `{}`", token.shown()), Some(ALIASES)),
            Kind::Header if self.is_body => usual(&token, wanted),
            Kind::Header if is_known(&token) => (instead(&token, wanted), Some(ORDER)),
            Kind::Header => self.other_item(&token),
            _ => usual(&token, wanted),
        };
        wrong_at(token.at, what, advice)
    }

    /// What is wrong with the next header item, which is none of the subset, and what to do about it. One with a small letter may have a value
    /// for which it cannot be taken out.
    fn other_item(&self, name: &Token) -> (String, Option<&'static str>) {
        let item = format!("the header item `{}`", name.shown());
        if !name.bytes[0].is_ascii_lowercase() {
            let advice = if name.is("Alias:") { ALIASES } else { CAPITAL };
            return (format!("{item}, which is not read"), Some(advice));
        }
        let values = self.tokens.clone().skip(1).filter(|token| token.kind != Kind::Comment);
        let values = values.take_while(|token| token.kind != Kind::Header);
        let values = values.take_while(|token| !token.is("--BODY--") && !token.is("--ABORT--"));
        match extra::obstacle(name, values) {
            Some(value) if value.kind == Kind::Word => (format!("{item} with `{}`", value.shown()), Some(CAPITAL)),
            Some(value) => (format!("{item} with `{}`, which no such item has", value.shown()), None),
            None => (format!("{item}, which is not read"), None),
        }
    }
}

/// Whether the token names an item of the subset, or begins the declaration of a state.
fn is_known(token: &Token) -> bool {
    let names = ["HOA:", "States:", "Start:", "AP:", "acc-name:", "Acceptance:", "State:"];
    names.iter().any(|name| token.is(name))
}

fn instead(token: &Token, wanted: Wanted) -> String {
    format!("`{}` where {wanted} should stand", token.shown())
}

/// What is usually wrong where such a token stands in the place of what is wanted, and what to do about it.
fn usual(token: &Token, wanted: Wanted) -> (String, Option<&'static str>) {
    let (shown, instead) = (token.shown(), instead(token, wanted));
    match (wanted, token.bytes) {
        (_, b"--ABORT--") => ("`--ABORT--`: the translator has given up".into(), None),
        (Wanted::Part, b"{") => (
            "`{` behind a target, or a second one behind a state".into(),
            Some(ON_STATES),
        ),
        (Wanted::Part, b"&") => ("`&` behind a target".into(), Some(BRANCHING)),
        (Wanted::Part, b"[") => ("an edge before the first `State:`".into(), Some(FIRST_STATE)),
        (Wanted::Part, _) if token.kind == Kind::Number => (format!("`{shown}` without a label"), Some(LABELS)),
        (Wanted::Part, _) if token.kind == Kind::Quoted => {
            ("a string, which may stand behind a state's number only".into(), None)
        }
        (Wanted::Part, _) if token.kind == Kind::Header => (instead, Some(BODY)),
        (Wanted::State, b"[") => ("a label on a state".into(), Some(LABELS)),
        (Wanted::Word("v1"), _) | (Wanted::Word("States:"), b".") => (instead, Some(VERSION)),
        (Wanted::Word("AP:"), b"&") => ("`&` behind the initial state".into(), Some(BRANCHING)),
        (Wanted::Word("AP:" | "Acceptance:"), _) => (instead, Some(ORDER)),
        (Wanted::Word("1" | "Inf" | "(" | "0" | "Buchi" | "}" | "--BODY--"), _) => (instead, Some(ON_STATES)),
        (Wanted::Word("]" | ")") | Wanted::Operand, _) => (instead, Some(LABEL)),
        (Wanted::Name, _) => (instead, Some(NAMES)),
        _ => (instead, None),
    }
}

fn ends(text: &[u8], wanted: Wanted) -> Fault {
    wrong_at(text.len(), format!("the text ends where {wanted} should stand"), None)
}

/// A byte of a string that may be a proposition's name.
fn is_name_byte(byte: u8) -> bool {
    (0x20..=0x7E).contains(&byte) && byte != b'\\'
}

/// A fault with this number at the token, unless its value is in range.
fn within(is_within: bool, number: u8, token: Token, rule: &str) -> Result<(), Fault> {
    let (at, what) = (token.at, format!("`{}` is outside: {rule}", token.shown()));
    match is_within {
        true => Ok(()),
        false => Err(Fault {
            number,
            at,
            what,
            advice: None,
        }),
    }
}

fn wrong(token: &Token, what: &str, advice: Option<&'static str>) -> Fault {
    wrong_at(token.at, format!("`{}` {what}", token.shown()), advice)
}

fn wrong_at(at: usize, what: String, advice: Option<&'static str>) -> Fault {
    Fault {
        number: 17,
        at,
        what,
        advice,
    }
}

#[cfg(test)]
mod tests {
    use super::{find, ABORTED, BODY, FIRST_STATE, LABEL, ONE, TOUCHING, VERSION};

    const WHOLE: &str =
        "HOA: v1\nStates: 2\nStart: 0\nAP: 2 \"p\" \"q\"\nacc-name: Buchi\nAcceptance: 1 Inf(0)\n--BODY--\n\
                         State: 0 {0}\n[!0 & (t | 1)] 1\n[f] 0\nState: 1\n--END--\n";

    /// Replaces the one place of the text that has `old`; the first fault is then at the first byte of `at` in the new text, and this is said of it.
    fn faults(old: &str, new: &str, at: &str, what: &str) {
        assert_eq!(WHOLE.matches(old).count(), 1, "{old}");
        let text = WHOLE.replace(old, new);
        let fault = find(text.as_bytes()).unwrap_or_else(|| panic!("no fault in {text}"));
        let refusal = edition::from_hanoi(text.as_bytes()).expect_err(&text);
        assert_eq!(fault.number, refusal.number(), "{text}: {fault:?}");
        assert!(text[fault.at..].starts_with(at), "{fault:?}");
        assert!(fault.what.contains(what), "{fault:?}");
    }

    /// As `faults`, and this is the advice.
    fn advises(old: &str, new: &str, at: &str, what: &str, advice: &str) {
        faults(old, new, at, what);
        let fault = find(WHOLE.replace(old, new).as_bytes());
        assert_eq!(fault.and_then(|fault| fault.advice), Some(advice), "{new}");
    }

    #[test]
    fn whole_texts_have_no_fault() {
        for text in [WHOLE, TIGHT] {
            assert_eq!(find(text.as_bytes()), None);
            assert!(edition::from_hanoi(text.as_bytes()).is_ok());
        }
    }

    #[test]
    fn a_header_item_that_is_not_read_is_named() {
        faults("States: 2", "name: \"x\" States: 2", "name:", "the header item `name:`");
        faults(
            "--BODY--",
            "properties: a --BODY--",
            "properties:",
            "the header item `properties:`",
        );
        faults("--BODY--", "Alias: @a 0 --BODY--", "Alias:", "the header item `Alias:`");
        faults("--BODY--", "Other: --BODY--", "Other:", "the header item `Other:`");
        faults(
            "--BODY--",
            "properties: a Weak --BODY--",
            "properties:",
            "`properties:` with `Weak`",
        );
        faults(
            "--BODY--",
            "x: /* a */ [0] --BODY--",
            "x:",
            "`x:` with `[`, which no such item has",
        );
        faults("States: 2\n", "", "Start:", "`Start:` where `States:` should stand");
        faults(
            "Start: 0\n",
            "Start: 0 Start: 1\n",
            "Start: 1",
            "where `AP:` should stand",
        );
        faults("Start: 0\n", "Start: 0&1\n", "&1", "`&` behind the initial state");
    }

    #[test]
    fn another_version_is_named() {
        for version in ["v2", "v1-1", "v10"] {
            let what = format!("`{version}` where `v1` should stand");
            advises("HOA: v1", &format!("HOA: {version}"), version, &what, VERSION);
        }
        let what = "`.` where `States:` should stand";
        advises("HOA: v1", "HOA: v1.1", ".1", what, VERSION);
    }

    #[test]
    fn a_header_word_in_the_body_is_no_header_item() {
        for word in ["name:", "Alias:", "States:", "HOA:", "acc-name:"] {
            let what = format!("`{word}` where `State:`, `[` or `--END--` should stand");
            advises("--END--", &format!("{word} --END--"), word, &what, BODY);
        }
        faults("[f] 0", "[f] x:", "x:", "`x:` where the edge's target should stand");
        advises("[f] 0", "[f x:] 0", "x:", "`x:` where `]` should stand", LABEL);
        faults("State: 1", "State: x:", "x:", "`x:` where the number of a state");
    }

    #[test]
    fn an_abort_decides_the_advice_wherever_it_stands() {
        let what = "`--ABORT--`: the translator has given up";
        for place in ["HOA: ", "States: ", "Start: ", "--BODY--", "[f", "[f] "] {
            advises(place, &format!("{place} --ABORT-- "), "--ABORT--", what, ABORTED);
        }
        advises("--END--", "--ABORT--", "--ABORT--", what, ABORTED);
        let further = "which is not read; and `--ABORT--` stands further on";
        for item in [
            "name: \"x\" --ABORT--",
            "name: x: --ABORT--",
            "name: States: 2 --ABORT--",
        ] {
            advises("States: 2", item, "name:", further, ABORTED);
        }
        let further = "`2` where `1` should stand; and `--ABORT--` stands further on";
        advises("1 Inf(0)", "2 Inf(0)&Inf(1) --ABORT--", "2 Inf", further, ABORTED);
        faults("States: 2", "States: 33 --ABORT--", "33", "States is 1 to 32");
        advises("--END--", "--END-- --ABORT--", "--ABORT--", "behind `--END--`", ONE);
        faults("--BODY--", "x: \"--ABORT--\" --BODY--", "x:", "`x:`, which is not read");
    }

    #[test]
    fn numbers_out_of_range_have_the_kernels_number() {
        faults("States: 2", "States: 33", "33", "`33` is outside: States is 1 to 32");
        faults("States: 2", "States: 0", "0", "States is 1 to 32");
        faults(
            "States: 2",
            "States: 99999999999999999999999",
            "9999",
            "States is 1 to 32",
        );
        faults("Start: 0", "Start: 2", "2", "Start is below States");
        faults("AP: 2", "AP: 5", "5", "AP has at most 4");
        let what = "begins with 0, and a number of several digits may not";
        faults("AP: 2", "AP: 05", "05", what);
        faults("State: 1", "State: 2", "2", "states are below States");
        faults("State: 1", "State: 0", "0\n--END", "is declared a second time");
        faults("[f] 0", "[f] 2", "2", "targets are below States");
        faults("[f] 0", "[2] 0", "2]", "is no proposition of AP");
        let what = "needs white space before it";
        advises("States: 2\n", "States: 2", "Start:", what, TOUCHING);
    }

    #[test]
    fn another_acceptance_is_named() {
        faults(
            "acc-name: Buchi",
            "acc-name: co-Buchi",
            "co-Buchi",
            "where `Buchi` should stand",
        );
        faults("1 Inf(0)", "2 Inf(0)&Inf(1)", "2 Inf", "`2` where `1` should stand");
        faults("1 Inf(0)", "1 Fin(0)", "Fin", "`Fin` where `Inf` should stand");
        faults("1 Inf(0)", "0 t", "0 t", "`0` where `1` should stand");
        faults("[f] 0", "[f] 0 {0}", "{0}\nState: 1", "`{` behind a target");
        faults("{0}", "{1}", "1}", "`1` where `0` should stand");
        faults("{0}", "{}", "}", "`}` where `0` should stand");
    }

    #[test]
    fn other_labels_and_targets_are_named() {
        faults("[f] 0", "0", "0\nState: 1", "`0` without a label");
        faults("State: 0 {0}", "State: [t] 0", "[t]", "a label on a state");
        faults("State: 0 {0}", "State: 0 \"a\"", "\"a\"", "the state name \"a\"");
        let what = "a string, which may stand behind a state's number only";
        faults("State: 0 {0}", "State: 0 {0} \"a\"", "\"a\"", what);
        faults("[f] 0", "[f] 0 \"a\"", "\"a\"", what);
        faults("--BODY--", "--BODY-- \"a\"", "\"a\"", what);
        let what = "an edge before the first `State:`";
        advises("State: 0 {0}", "[t] 0 State: 0", "[t]", what, FIRST_STATE);
        faults("[f] 0", "[f] 0&1", "&1", "`&` behind a target");
        faults("[f]", "[@a]", "@a", "the alias `@a`");
        faults("[f]", "[]", "] 0", "`]` where `t`");
        faults("[f]", "[t && f]", "& f", "`&` where `t`");
        faults("[f]", "[t f]", "f]", "`f` where `]` should stand");
    }

    #[test]
    fn depth_is_counted_over_negations_and_parentheses() {
        for (left, right) in [("!", ""), ("(", ")")] {
            let nested = |depth| format!("[{}f{}]", left.repeat(depth), right.repeat(depth));
            assert_eq!(find(WHOLE.replace("[f]", &nested(64)).as_bytes()), None);
            faults("[f]", &nested(65), &format!("{left}f"), "inside 64 others");
        }
    }

    #[test]
    fn comments_strings_and_ends_are_named() {
        faults("Start:", "/* x */ Start:", "/* x", "a comment");
        faults("Start:", "/* Start:", "/* Start", "does not end");
        faults("\"q\"", "\"q", "\"q\n", "does not end");
        faults("\"q\"", "\"q\\\"\"", "\\\"", "a byte that no name has");
        faults("\"q\"", "q", "q", "`q` where the name of a proposition should stand");
        faults(
            "--END--",
            "",
            "",
            "the text ends where `State:`, `[` or `--END--` should stand",
        );
        faults("--END--", "--END-- HOA: v1", "HOA: v1", "`HOA:` behind `--END--`");
    }

    /// A text with as few blanks as can be.
    const TIGHT: &str =
        "HOA:v1 States:3 Start:0 AP:1\"a\"Acceptance:1 Inf(0)--BODY--State:0{0}[!0]0[t&(f)]2 State:1[0]0--END--";

    /// The text with a byte changed or put in, or a run of bytes left out or doubled elsewhere.
    fn changed(mut text: Vec<u8>, random: &mut impl FnMut(usize) -> usize) -> Vec<u8> {
        let bytes = b" \n\t\x0B\x00-_:aAtfHSI0129\"\\()[]{}!&|@/*\xFF";
        let (at, length) = (random(text.len()), random(8));
        let run = at..(at + length).min(text.len());
        match random(4) {
            0 => text[at] = bytes[random(bytes.len())],
            1 => text.insert(at, bytes[random(bytes.len())]),
            2 => drop(text.drain(run)),
            _ => {
                let (run, to) = (text[run].to_vec(), random(text.len()));
                text.splice(to..to, run);
            }
        }
        text
    }

    #[test]
    fn a_fault_is_found_just_where_the_kernel_refuses_and_has_its_number() {
        const SEED: u64 = 20_265;
        let mut state = SEED;
        let mut random = |below: usize| {
            state = state
                .wrapping_mul(6_364_136_223_846_793_005)
                .wrapping_add(1_442_695_040_888_963_407);
            (state >> 33) as usize % below
        };
        let mut counts = [0; 19];
        for round in 0..40_000 {
            let mut text = [WHOLE, TIGHT][round % 2].as_bytes().to_vec();
            for _ in 0..1 + random(3) {
                text = changed(text, &mut random);
            }
            let number = edition::from_hanoi(&text).map_or_else(|refusal| refusal.number(), |_| 0);
            let (found, shown) = (find(&text), String::from_utf8_lossy(&text));
            let its = found.as_ref().map_or(0, |fault| fault.number);
            assert_eq!(its, number, "seed {SEED}, round {round}: {found:?} in {shown}");
            counts[usize::from(number)] += 1;
        }
        let all = [0, 3, 4, 17, 18];
        assert!(all.iter().all(|&number| counts[number] > 20), "{counts:?}");
    }
}
