//! `--json`: every answer is one JSON object on one line of standard output, wrong use included.

use std::str::Chars;

use crate::folder::Folder;
use crate::write::MIXED;

/// Reads one JSON value as RFC 8259 has it, as far as the command writes them: no signs, fractions and exponents.
struct Reader<'a> {
    rest: Chars<'a>,
}

impl Reader<'_> {
    fn peek(&self) -> Option<char> {
        self.rest.clone().next()
    }

    fn take(&mut self, wanted: char) {
        assert_eq!(self.rest.next(), Some(wanted), "before {:?}", self.rest.as_str());
    }

    fn value(&mut self) {
        match self.peek() {
            Some('{') => self.items('{', '}', |reader| {
                reader.text();
                reader.take(':');
                reader.value();
            }),
            Some('[') => self.items('[', ']', Reader::value),
            Some('"') => self.text(),
            Some('n') => self.name("null"),
            Some('t') => self.name("true"),
            Some('f') => self.name("false"),
            Some('0') => self.take('0'),
            other => self.number(other),
        }
    }

    fn name(&mut self, name: &str) {
        name.chars().for_each(|letter| self.take(letter));
    }

    fn number(&mut self, first: Option<char>) {
        assert!(
            first.is_some_and(|digit| digit.is_ascii_digit()),
            "no value begins with {first:?}"
        );
        while self.peek().is_some_and(|digit| digit.is_ascii_digit()) {
            self.rest.next();
        }
    }

    fn items(&mut self, open: char, close: char, item: impl Fn(&mut Self)) {
        self.take(open);
        if self.peek() == Some(close) {
            return self.take(close);
        }
        loop {
            item(self);
            match self.rest.next() {
                Some(',') => (),
                last => return assert_eq!(last, Some(close)),
            }
        }
    }

    fn text(&mut self) {
        self.take('"');
        loop {
            match self.rest.next().expect("a closing quote") {
                '"' => return,
                '\\' => self.escape(),
                letter => assert!(letter >= ' ', "a control character stands unescaped"),
            }
        }
    }

    fn escape(&mut self) {
        match self.rest.next().expect("an escaped character") {
            'u' => (0..4).for_each(|_| assert!(self.rest.next().is_some_and(|digit| digit.is_ascii_hexdigit()))),
            letter => assert!("\"\\/bfnrt".contains(letter), "\\{letter} is no escape"),
        }
    }
}

fn well_formed(out: &str) {
    let line = out.strip_suffix('\n').expect("a line");
    let mut reader = Reader { rest: line.chars() };
    assert!(line.starts_with('{'), "{line}");
    reader.value();
    assert_eq!(reader.rest.as_str(), "");
}

/// The lines of answers.txt in turn: the words, then the status and the object.
#[test]
fn every_answer_has_its_counts_words_and_advice() {
    let folder = Folder::new("json_answers");
    folder.write("cut.ba", b"AH");
    folder.write("long.ba", &[0; 65537]);
    folder.write("empty", &[0; 2061]);
    folder.write("mixed.ba", MIXED);
    let body = "States: 1 Start: 0 AP: 0 Acceptance: 1 Inf(0) --BODY-- State: 0 {0} [t] 0 --END--";
    folder.write("named.hoa", format!("HOA: v1\n name: \"true\"\n{body}").as_bytes());
    let lines: Vec<&str> = include_str!("answers.txt").lines().collect();
    for pair in lines.chunks(2) {
        let (words, wanted) = (pair[0].split(' ').collect::<Vec<_>>(), pair[1]);
        let run = folder.run(&[words.as_slice(), &["--json"]].concat());
        assert_eq!(
            format!("{} {}", run.status, run.out),
            format!("{wanted}\n"),
            "{words:?}"
        );
        assert_eq!(run.err, "", "{words:?}");
        well_formed(&run.out);
    }
}

#[test]
fn wrong_use_and_unreadable_files_are_json_too() {
    let folder = Folder::new("json_failures");
    let odd = "quote\"\\\n\u{1}";
    let usage: [&[&str]; 6] = [
        &[],
        &["close"],
        &["contain", "f.ba"],
        &["contain", "f.ba", "g.ba", "x"],
        &["show", "f.ba", "--dot"],
        &["show", "f.ba", odd],
    ];
    let failed: [&[&str]; 3] = [&["show", "none.ba"], &["show", odd], &["offer", "none", "f.ba", "1"]];
    let lines = usage
        .map(|words| ("usage", words))
        .into_iter()
        .chain(failed.map(|words| ("failed", words)));
    for (answer, words) in lines {
        let run = folder.run(&[words, &["--json"]].concat());
        assert!(run.status == 3 && run.err.is_empty(), "{words:?}: {run:?}");
        let beginning = format!("\"answer\":\"{answer}\",\"status\":3,\"message\":\"");
        assert!(run.out.contains(&beginning), "{words:?}: {run:?}");
        well_formed(&run.out);
    }
}
