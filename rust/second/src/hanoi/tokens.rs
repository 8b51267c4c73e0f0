//! The tokens of a Hanoi text, in the order of the text.

use crate::refusal::Refusal;

/// Stands for every number of three digits and more: all are above what a text may say anywhere.
const LARGE: u8 = u8::MAX;

/// What stands between white space, or beside another token. A colon is part of the word before it.
#[derive(Clone, Copy, Debug, PartialEq, Eq)]
pub enum Token {
    /// `HOA:`
    Hoa,
    /// `v1`
    Version,
    /// `States:`
    States,
    /// `Start:`
    Start,
    /// `AP:`
    Propositions,
    /// `acc-name:`
    AcceptanceName,
    /// `Buchi`
    Buchi,
    /// `Acceptance:`
    Acceptance,
    /// `Inf`
    Infinitely,
    /// `--BODY--`
    Body,
    /// `State:`
    State,
    /// `--END--`
    End,
    /// `t`
    True,
    /// `f`
    False,
    /// `!`
    Not,
    /// `&`
    And,
    /// `|`
    Or,
    /// One of `( { [`
    Opening(u8),
    /// One of `) } ]`
    Closing(u8),
    /// A number up to 99, or any larger one as 255.
    Number(u8),
    /// A name with its quotes.
    Name,
    /// The first place where no token can stand; nothing is read behind it.
    Fault,
}

/// Words and marks of several bytes. None begins with another one.
const WORDS: [(&[u8], Token); 12] = [
    (b"State:", Token::State),
    (b"--END--", Token::End),
    (b"HOA:", Token::Hoa),
    (b"v1", Token::Version),
    (b"States:", Token::States),
    (b"Start:", Token::Start),
    (b"AP:", Token::Propositions),
    (b"acc-name:", Token::AcceptanceName),
    (b"Buchi", Token::Buchi),
    (b"Acceptance:", Token::Acceptance),
    (b"Inf", Token::Infinitely),
    (b"--BODY--", Token::Body),
];

/// All tokens of the text. A fault in it is a token too, so what stands before it is seen first.
pub fn tokens(text: &[u8]) -> Vec<Token> {
    let mut tokens = Vec::with_capacity(text.len());
    let mut before = b' ';
    let mut rest = text;
    while let Some((&byte, behind)) = rest.split_first() {
        if let Some(token) = sign(byte) {
            tokens.push(token);
        } else if !is_white(byte) {
            let (token, length) = longer(before, rest);
            tokens.push(token);
            if token == Token::Fault {
                break;
            }
            (before, rest) = (rest[length - 1], &rest[length..]);
            continue;
        }
        (before, rest) = (byte, behind);
    }
    tokens
}

fn is_white(byte: u8) -> bool {
    matches!(byte, b' ' | b'\t' | b'\n' | b'\r')
}

/// The token of one byte that is no letter and no digit.
fn sign(byte: u8) -> Option<Token> {
    match byte {
        b'!' => Some(Token::Not),
        b'&' => Some(Token::And),
        b'|' => Some(Token::Or),
        b'(' | b'{' | b'[' => Some(Token::Opening(byte)),
        b')' | b'}' | b']' => Some(Token::Closing(byte)),
        _ => None,
    }
}

/// The number, name or word that the bytes begin with, and its length. A letter or digit right behind another one begins none.
fn longer(before: u8, rest: &[u8]) -> (Token, usize) {
    if before.is_ascii_alphanumeric() && rest[0].is_ascii_alphanumeric() {
        return (Token::Fault, 1);
    }
    match rest[0] {
        b'0'..=b'9' => number(rest),
        b'"' => name(rest),
        b't' => (Token::True, 1),
        b'f' => (Token::False, 1),
        _ => word(rest),
    }
}

/// The longest run of digits. One of several digits that begins with 0 is no number.
fn number(rest: &[u8]) -> (Token, usize) {
    let length = rest.iter().take_while(|byte| byte.is_ascii_digit()).count();
    let token = match rest[..length] {
        [digit] => Token::Number(digit - b'0'),
        [b'0', ..] => Token::Fault,
        [tens, ones] => Token::Number(10 * (tens - b'0') + (ones - b'0')),
        _ => Token::Number(LARGE),
    };
    (token, length)
}

/// Printable bytes between quotes, without quote and backslash.
fn name(rest: &[u8]) -> (Token, usize) {
    let inside = |byte: &u8| matches!(byte, 0x20..=0x7E) && *byte != b'"' && *byte != b'\\';
    let length = 1 + rest[1..].iter().take_while(|byte| inside(byte)).count();
    match rest.get(length) {
        Some(b'"') => (Token::Name, length + 1),
        _ => (Token::Fault, length),
    }
}

fn word(rest: &[u8]) -> (Token, usize) {
    let found = WORDS.iter().find(|(word, _)| rest.starts_with(word));
    found.map_or((Token::Fault, 1), |&(word, token)| (token, word.len()))
}

/// The tokens that are not read yet. At the end there is none.
pub struct Reader<'a> {
    rest: &'a [Token],
}

impl<'a> Reader<'a> {
    /// A reader of these tokens.
    pub fn new(tokens: &'a [Token]) -> Reader<'a> {
        Reader { rest: tokens }
    }

    /// Reads a token.
    pub fn next(&mut self) -> Option<Token> {
        let (&token, rest) = self.rest.split_first()?;
        self.rest = rest;
        Some(token)
    }

    /// Reads this token if it is the next one.
    pub fn take(&mut self, token: Token) -> bool {
        let is_next = self.rest.first() == Some(&token);
        if is_next {
            self.rest = &self.rest[1..];
        }
        is_next
    }

    /// Reads these tokens; 17 at the first place where another one stands, or none.
    pub fn expect(&mut self, tokens: &[Token]) -> Result<(), Refusal> {
        let all = tokens.iter().all(|&token| self.take(token));
        all.then_some(()).ok_or(Refusal::Text)
    }

    /// Reads a number; 17 if there is none.
    pub fn number(&mut self) -> Result<u8, Refusal> {
        match self.next() {
            Some(Token::Number(number)) => Ok(number),
            _ => Err(Refusal::Text),
        }
    }
}
