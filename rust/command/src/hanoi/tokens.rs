//! The tokens of the Hanoi Omega-Automata format, version 1, as its standard has them. The kernel reads a part of that format by rules of its own;
//! here texts are looked at for display, and for what may be taken out of them.

use std::ops::Range;

/// What a token is.
#[derive(Clone, Copy, Debug, PartialEq, Eq)]
pub enum Kind {
    /// A name with its colon, such as `AP:`.
    Header,
    /// An identifier, such as `Buchi` or `t`.
    Word,
    /// A run of digits.
    Number,
    /// A string with its quotes. A backslash and the byte behind it stand for one character.
    Quoted,
    /// The name of an alias, with its `@`.
    Alias,
    /// `--BODY--`, `--END--` or `--ABORT--`.
    Mark,
    /// One of `( ) { } [ ] ! & |`.
    Sign,
    /// A comment, with those inside it.
    Comment,
    /// A string or comment that does not end, up to the end of the text.
    Unfinished,
    /// A byte that begins no token.
    Other,
}

/// A token, and where it stands.
#[derive(Clone, Copy, Debug, PartialEq, Eq)]
pub struct Token<'a> {
    pub kind: Kind,
    pub at: usize,
    pub bytes: &'a [u8],
}

impl Token<'_> {
    /// Where the token stands in the text.
    pub fn range(&self) -> Range<usize> {
        self.at..self.at + self.bytes.len()
    }

    /// Whether these are the token's bytes.
    pub fn is(&self, bytes: &str) -> bool {
        self.bytes == bytes.as_bytes()
    }

    /// The token for people, not longer than a line has room for.
    pub fn shown(&self) -> String {
        shortened(self.bytes)
    }
}

/// Bytes for people: on one line, and not longer than it has room for.
pub fn shortened(bytes: &[u8]) -> String {
    const MOST: usize = 60;
    let text = String::from_utf8_lossy(bytes);
    let line = text.split_ascii_whitespace().collect::<Vec<_>>().join(" ");
    let mut shown: String = line.chars().take(MOST).map(printed).collect();
    if line.chars().count() > MOST {
        shown += " ...";
    }
    shown
}

/// The letter, or where it cannot be printed what stands for such letters.
fn printed(letter: char) -> char {
    match letter.is_control() {
        true => char::REPLACEMENT_CHARACTER,
        false => letter,
    }
}

/// White space of the format.
pub fn is_white(byte: u8) -> bool {
    b" \t\n\r".contains(&byte)
}

/// The tokens of a text, comments included.
#[derive(Clone)]
pub struct Tokens<'a> {
    text: &'a [u8],
    at: usize,
}

impl<'a> Tokens<'a> {
    pub fn of(text: &'a [u8]) -> Tokens<'a> {
        Tokens { text, at: 0 }
    }
}

impl<'a> Iterator for Tokens<'a> {
    type Item = Token<'a>;

    fn next(&mut self) -> Option<Token<'a>> {
        let white = self.text[self.at..].iter().take_while(|&&byte| is_white(byte)).count();
        let at = self.at + white;
        let rest = &self.text[at..];
        let (kind, length) = front(rest, *rest.first()?);
        self.at = at + length;
        let bytes = &rest[..length];
        Some(Token { kind, at, bytes })
    }
}

/// The token in front, of which this is the first byte: its kind and length.
fn front(rest: &[u8], first: u8) -> (Kind, usize) {
    match first {
        b'"' => finished(Kind::Quoted, string(rest), rest),
        b'/' if rest.starts_with(b"/*") => finished(Kind::Comment, comment(rest), rest),
        b'0'..=b'9' => (Kind::Number, run(rest, |byte| byte.is_ascii_digit())),
        b'a'..=b'z' | b'A'..=b'Z' | b'_' => word(rest),
        b'@' => match run(&rest[1..], is_name) {
            0 => (Kind::Other, 1),
            length => (Kind::Alias, 1 + length),
        },
        b'-' => mark(rest).map_or((Kind::Other, 1), |mark| (Kind::Mark, mark.len())),
        b'(' | b')' | b'{' | b'}' | b'[' | b']' | b'!' | b'&' | b'|' => (Kind::Sign, 1),
        _ => (Kind::Other, 1),
    }
}

fn finished(kind: Kind, length: Option<usize>, rest: &[u8]) -> (Kind, usize) {
    length.map_or((Kind::Unfinished, rest.len()), |length| (kind, length))
}

/// How many bytes in front are of this sort.
fn run(rest: &[u8], sort: impl Fn(u8) -> bool) -> usize {
    rest.iter().take_while(|&&byte| sort(byte)).count()
}

/// A byte of an identifier past its first.
fn is_name(byte: u8) -> bool {
    byte.is_ascii_alphanumeric() || byte == b'_' || byte == b'-'
}

/// An identifier, or with the colon behind it a header's name.
fn word(rest: &[u8]) -> (Kind, usize) {
    let length = run(rest, is_name);
    match rest.get(length) {
        Some(b':') => (Kind::Header, length + 1),
        _ => (Kind::Word, length),
    }
}

fn mark(rest: &[u8]) -> Option<&'static str> {
    let marks = ["--BODY--", "--END--", "--ABORT--"];
    marks.into_iter().find(|mark| rest.starts_with(mark.as_bytes()))
}

/// The length of the string in front, with its quotes.
fn string(rest: &[u8]) -> Option<usize> {
    let mut at = 1;
    loop {
        match rest.get(at)? {
            b'"' => return Some(at + 1),
            b'\\' => at += 2,
            _ => at += 1,
        }
    }
}

/// The length of the comment in front, with those inside it.
fn comment(rest: &[u8]) -> Option<usize> {
    let (mut at, mut depth) = (2, 1);
    while depth > 0 {
        match rest.get(at..at + 2)? {
            b"/*" => (at, depth) = (at + 2, depth + 1),
            b"*/" => (at, depth) = (at + 2, depth - 1),
            _ => at += 1,
        }
    }
    Some(at)
}

#[cfg(test)]
mod tests {
    use super::{Kind, Tokens};

    /// The tokens' bytes, with bars between them.
    fn split(text: &str) -> String {
        let tokens = Tokens::of(text.as_bytes()).map(|token| String::from_utf8_lossy(token.bytes).into_owned());
        tokens.collect::<Vec<_>>().join("¦")
    }

    fn kinds(text: &str) -> Vec<Kind> {
        Tokens::of(text.as_bytes()).map(|token| token.kind).collect()
    }

    #[test]
    fn tokens_end_where_the_standard_says() {
        assert_eq!(
            split("HOA:v1 States:3Start:0\tAP:1\"a b\"acc-name:Buchi\r\n"),
            "HOA:¦v1¦States:¦3¦Start:¦0¦AP:¦1¦\"a b\"¦acc-name:¦Buchi"
        );
        assert_eq!(
            split("--BODY--State:0{0}[!0&@a|(t)]12--END--"),
            "--BODY--¦State:¦0¦{¦0¦}¦[¦!¦0¦&¦@a¦|¦(¦t¦)¦]¦12¦--END--"
        );
        assert_eq!(split("x--END-- -x @ _a-1: 0a"), "x--END--¦-¦x¦@¦_a-1:¦0¦a");
    }

    #[test]
    fn a_string_ends_at_the_first_quote_without_a_backslash() {
        assert_eq!(
            split(r#""a\"b" "\\" "/* no comment */" x"#),
            r#""a\"b"¦"\\"¦"/* no comment */"¦x"#
        );
        assert_eq!(kinds(r#""\\\" x"#), [Kind::Unfinished]);
        for text in ["\"", "\"\\", "\"\\\""] {
            assert_eq!(kinds(text), [Kind::Unfinished], "{text}");
        }
    }

    #[test]
    fn comments_nest_and_their_quotes_open_no_string() {
        assert_eq!(split("a/* \" /* ** */ \" **/b"), "a¦/* \" /* ** */ \" **/¦b");
        assert_eq!(kinds("/**/ /*/*/ x"), [Kind::Comment, Kind::Unfinished]);
        for text in ["/*", "/*/", "/* /* */", "/* *"] {
            assert_eq!(kinds(text), [Kind::Unfinished], "{text}");
        }
        assert_eq!(kinds("/ * */"), [Kind::Other; 4]);
    }

    #[test]
    fn every_byte_is_in_a_token_or_white_and_none_is_in_two() {
        let bytes: Vec<u8> = (0..=255).flat_map(|byte| [byte, b' ']).collect();
        let whole = Tokens::of(&bytes).map(|token| token.bytes.len()).sum::<usize>();
        // The string goes from byte 22 to the end, blanks included.
        let strings = Tokens::of(&bytes)
            .filter(|token| token.kind == Kind::Unfinished)
            .count();
        assert_eq!((whole, strings), (0x22 - 4 + 2 * (256 - 0x22), 1));
    }
}
