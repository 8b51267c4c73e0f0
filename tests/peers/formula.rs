//! The formulas of examples/README.md in SPIN's notation.
//!
//! From loosest to tightest: > implies, | or, & and, U until and W weak until, then ! X F G, `true`, p, q, r and parentheses. SPIN has
//! no weak until: `a W b` is written as "always a, or a until b".

use std::iter::Peekable;
use std::str::Chars;

/// The formula for SPIN. Panics on one that is not of the form above: the formulas are the repository's own.
pub fn for_spin(formula: &str) -> String {
    let mut reader = Reader {
        rest: formula.chars().peekable(),
    };
    let text = reader.implies();
    assert_eq!(reader.peek(), None, "{formula}");
    text
}

struct Reader<'a> {
    rest: Peekable<Chars<'a>>,
}

impl Reader<'_> {
    /// The next character, blanks skipped.
    fn peek(&mut self) -> Option<char> {
        while self.rest.next_if_eq(&' ').is_some() {}
        self.rest.peek().copied()
    }

    /// Takes the character if it is next.
    fn takes(&mut self, wanted: char) -> bool {
        let is_next = self.peek() == Some(wanted);
        if is_next {
            self.rest.next();
        }
        is_next
    }

    fn implies(&mut self) -> String {
        let first = self.ors();
        match self.takes('>') {
            true => format!("({first} -> {})", self.implies()),
            false => first,
        }
    }

    fn ors(&mut self) -> String {
        let mut text = self.ands();
        while self.takes('|') {
            text = format!("({text} || {})", self.ands());
        }
        text
    }

    fn ands(&mut self) -> String {
        let mut text = self.untils();
        while self.takes('&') {
            text = format!("({text} && {})", self.untils());
        }
        text
    }

    fn untils(&mut self) -> String {
        let first = self.unary();
        if self.takes('U') {
            return format!("({first} U {})", self.untils());
        }
        if self.takes('W') {
            let second = self.untils();
            return format!("(([] {first}) || ({first} U {second}))");
        }
        first
    }

    fn unary(&mut self) -> String {
        let next = self.peek();
        self.rest.next();
        match next {
            Some('!') => format!("(! {})", self.unary()),
            Some('X') => format!("(X {})", self.unary()),
            Some('F') => format!("(<> {})", self.unary()),
            Some('G') => format!("([] {})", self.unary()),
            Some(name @ ('p' | 'q' | 'r')) => name.to_string(),
            Some('t') => {
                assert!("rue".chars().all(|letter| self.takes(letter)));
                "true".into()
            }
            Some('(') => {
                let text = self.implies();
                assert!(self.takes(')'), "no closing parenthesis");
                text
            }
            other => panic!("no formula begins with {other:?}"),
        }
    }
}
