//! What the standard of the Hanoi format says has no effect on an automaton's words, and how it is taken out of a text: header items whose
//! name begins with a small letter, but not `acc-name:`, state names, and comments. The kernel reads the rest, and alone decides what it is.

use std::ops::Range;

use super::tokens::{is_white, shortened, Kind, Token, Tokens};

/// What is taken out of a text.
#[derive(Clone, Debug, PartialEq, Eq)]
pub struct Extra {
    /// What it is, such as "`name:`".
    pub what: String,
    /// Its bytes in the text.
    pub range: Range<usize>,
    /// The line on which it begins, from 1.
    pub line: usize,
}

impl Extra {
    fn new(what: String, range: Range<usize>) -> Extra {
        Extra { what, range, line: 0 }
    }

    /// Its bytes for people.
    pub fn shown(&self, text: &[u8]) -> String {
        shortened(&text[self.range.clone()])
    }
}

/// What may be taken out of the text, from its front to its back or to `--ABORT--`. Of a text that is none of the format this may be nothing.
pub fn find(text: &[u8]) -> Vec<Extra> {
    let tokens = Tokens::of(text).take_while(|token| !token.is("--ABORT--"));
    let comments = tokens.clone().filter(|token| token.kind == Kind::Comment);
    let mut extras: Vec<Extra> = comments
        .map(|token| Extra::new("a comment".into(), token.range()))
        .collect();
    let mut tokens = tokens.filter(|token| token.kind != Kind::Comment);
    if tokens.next().is_some_and(|token| token.is("HOA:")) {
        let header: Vec<Token> = tokens.by_ref().take_while(|token| !token.is("--BODY--")).collect();
        extras.extend(items(&header));
        extras.extend(state_names(tokens.take_while(|token| !token.is("--END--"))));
    }
    extras.sort_by_key(|extra| extra.range.start);
    drop_inner(&mut extras);
    number_lines(&mut extras, text);
    extras
}

/// The text with blanks in the place of what is taken out, so that every other byte stays on its line and in its column.
pub fn without(text: &[u8], extras: &[Extra]) -> Vec<u8> {
    let mut rest = text.to_vec();
    for extra in extras {
        let taken = rest[extra.range.clone()].iter_mut();
        taken.filter(|byte| !is_white(**byte)).for_each(|byte| *byte = b' ');
    }
    rest
}

/// A comment inside an item goes with it.
fn drop_inner(extras: &mut Vec<Extra>) {
    let mut end = 0;
    extras.retain(|extra| {
        let is_outside = extra.range.start >= end;
        end = end.max(extra.range.end);
        is_outside
    });
}

fn number_lines(extras: &mut [Extra], text: &[u8]) {
    let (mut line, mut at) = (1, 0);
    for extra in extras {
        line += text[at..extra.range.start]
            .iter()
            .filter(|&&byte| byte == b'\n')
            .count();
        (extra.line, at) = (line, extra.range.start);
    }
}

/// The items of a header that have no effect. An item goes from its name to the token before the next name.
fn items(header: &[Token]) -> Vec<Extra> {
    let names = (0..header.len()).filter(|&place| header[place].kind == Kind::Header);
    let names = names.filter(|&place| is_whole(&header[..=place]));
    let items = names.map(|place| {
        let values = header[place + 1..].iter();
        let length = values.take_while(|token| token.kind != Kind::Header).count();
        (header[place], &header[place + 1..=place + length])
    });
    items
        .filter(|(name, values)| has_no_effect(name, values))
        .map(|(name, values)| {
            let last = values.last().unwrap_or(&name);
            Extra::new(format!("`{}`", name.shown()), name.at..last.range().end)
        })
        .collect()
}

/// Whether the last of the tokens is a whole name. With a byte of no token right in front of it, or in front of the words and numbers that
/// touch it, it is the end of something else, such as `edges:` in `spot.highlight.edges:`.
fn is_whole(tokens: &[Token]) -> bool {
    let pairs = tokens.windows(2).rev();
    let mut touching = pairs
        .take_while(|pair| pair[0].range().end == pair[1].at)
        .map(|pair| pair[0].kind);
    touching.find(|kind| !matches!(kind, Kind::Word | Kind::Number)) != Some(Kind::Other)
}

/// Whether the standard lets a reader ignore the item: its name begins with a small letter, and nothing in it speaks against that. The name
/// of an acceptance condition is read.
fn has_no_effect(name: &Token, values: &[Token]) -> bool {
    name.bytes[0].is_ascii_lowercase() && !name.is("acc-name:") && obstacle(name, values.iter().copied()).is_none()
}

/// The first of an item's values for which the item stays: one that is no word, number or string, as all values of such items are, or a
/// property that does not begin with a small letter, since it may change what is accepted.
pub fn obstacle<'a>(name: &Token, mut values: impl Iterator<Item = Token<'a>>) -> Option<Token<'a>> {
    values.find(|value| match value.kind {
        Kind::Word => name.is("properties:") && !value.bytes[0].is_ascii_lowercase(),
        kind => kind != Kind::Number && kind != Kind::Quoted,
    })
}

/// The strings behind the numbers of the states that are declared, whether a label stands before the number or not.
fn state_names<'a>(body: impl Iterator<Item = Token<'a>>) -> Vec<Extra> {
    let (mut names, mut body) = (Vec::new(), body.peekable());
    while let Some(token) = body.next() {
        if !token.is("State:") {
            continue;
        }
        if body.next_if(|next| next.is("[")).is_some() {
            while body.next_if(|next| !next.is("]")).is_some() {}
            body.next();
        }
        let number = body.next_if(|next| next.kind == Kind::Number);
        let name = number.and_then(|_| body.next_if(|next| next.kind == Kind::Quoted));
        names.extend(name.map(|name| Extra::new("a state name".into(), name.range())));
    }
    names
}

#[cfg(test)]
mod tests {
    use super::{find, without};

    /// A text with this between the version and States.
    fn headed(items: &str) -> String {
        format!("HOA: v1 {items} States: 1 Start: 0 AP: 0 Acceptance: 1 Inf(0) --BODY-- State: 0 {{0}} [t] 0 --END--")
    }

    /// A text with this body.
    fn with_body(body: &str) -> String {
        format!("HOA: v1 States: 1 Start: 0 AP: 0 Acceptance: 1 Inf(0) --BODY-- {body} --END--")
    }

    /// What is taken out of the text, with bars between.
    fn taken(text: &str) -> String {
        let extras = find(text.as_bytes());
        let taken = extras.iter().map(|extra| &text[extra.range.clone()]);
        taken.collect::<Vec<_>>().join("¦")
    }

    /// Whether the kernel reads what is left of the text.
    fn is_read(text: &str) -> bool {
        let rest = without(text.as_bytes(), &find(text.as_bytes()));
        assert_eq!(rest.len(), text.len());
        edition::from_hanoi(&rest).is_ok()
    }

    /// This is taken out of the text, and the kernel reads what is left.
    fn takes(text: &str, extras: &str) {
        assert_eq!(taken(text), extras, "{text}");
        assert!(is_read(text), "{text}");
    }

    /// This is taken out of the text, and what is left has something that the kernel refuses.
    fn keeps(text: &str, extras: &str) {
        assert_eq!(taken(text), extras, "{text}");
        assert!(!is_read(text), "{text}");
    }

    #[test]
    fn items_with_a_small_letter_go_up_to_the_next_item() {
        takes(&headed(""), "");
        takes(&headed("name: \"F p\""), "name: \"F p\"");
        takes(
            &headed("tool: \"a\" \"1.0\"\n name: \"\""),
            "tool: \"a\" \"1.0\"¦name: \"\"",
        );
        takes(
            &headed("properties: very-weak t 12 \"x\" state-acc"),
            "properties: very-weak t 12 \"x\" state-acc",
        );
        takes(&headed("properties: x-1:"), "properties:¦x-1:");
        takes(
            "HOA:v1 States:1name:\"x\"Start:0 AP:0 x:0Acceptance:1 Inf(0)y:--BODY----END--",
            "name:\"x\"¦x:0¦y:",
        );
    }

    #[test]
    fn an_item_with_another_first_letter_or_other_values_stays() {
        for item in ["Alias: @a 0", "Custom: 1", "_x: 1", "Name: \"x\""] {
            keeps(&headed(item), "");
        }
        for item in ["name: [0]", "x: @a", "x: a & b", "x: #"] {
            keeps(&headed(item), "");
        }
        keeps(&headed("x: 1 Custom: 1 y: 2"), "x: 1¦y: 2");
    }

    #[test]
    fn the_end_of_a_name_that_is_none_of_version_1_stays() {
        for item in [
            "spot.highlight.edges: 1 1",
            "a.1b: 2",
            "a.b1.2c:",
            "-x: 1",
            "1.x: 1",
            "éx: 1",
        ] {
            keeps(&headed(item), "");
            keeps(&headed(&format!("{item} name: \"x\"")), "name: \"x\"");
            keeps(&headed(&format!("x: y {item}")), "");
        }
        keeps(&headed(". x: 1"), "x: 1");
        keeps(&headed("./**/x: 1"), "/**/¦x: 1");
    }

    #[test]
    fn past_an_abort_nothing_goes() {
        let past = "x: 1 /* a */ --BODY-- State: 0 \"a\"";
        keeps(&headed(&format!("name: \"x\" --ABORT-- {past}")), "name: \"x\"");
        keeps(&with_body(&format!("/* b */ State: 0 --ABORT-- {past}")), "/* b */");
        keeps(&format!("HOA: v1 --ABORT-- {}", headed(past)), "");
        takes(&headed("name: \"--ABORT--\" x: 1"), "name: \"--ABORT--\"¦x: 1");
        takes(&headed("/* --ABORT-- */ x: 1"), "/* --ABORT-- */¦x: 1");
    }

    #[test]
    fn the_acceptance_names_item_stays_and_is_read() {
        let text = "HOA: v1 States: 1 Start: 0 AP: 0 acc-name: Buchi x: y Acceptance: 1 Inf(0) --BODY-- --END--";
        takes(text, "x: y");
        keeps(&text.replace("Buchi", "co-Buchi"), "x: y");
        keeps(&headed("acc-name: Buchi"), "");
    }

    #[test]
    fn properties_with_a_capital_stay() {
        for properties in ["Weak", "state-acc Weak", "a _b"] {
            keeps(&headed(&format!("properties: {properties}")), "");
        }
        keeps(&headed("properties: Weak properties: b"), "properties: b");
        takes(&headed("x: Weak _b"), "x: Weak _b");
    }

    #[test]
    fn a_quote_with_a_backslash_ends_no_name() {
        let name = r#"name: "a\" States: 9 \\" tool: "\"""#;
        takes(&headed(name), r#"name: "a\" States: 9 \\"¦tool: "\"""#);
        takes(&headed("name: \"--BODY-- Custom: 1\""), "name: \"--BODY-- Custom: 1\"");
    }

    #[test]
    fn comments_go_wherever_they_stand() {
        takes(
            "/*a*/HOA:/*b*/v1/*c*/States:1/*d*/Start:0 AP:0 Acceptance:1/*e*/Inf(/*f*/0)--BODY--/*g*/--END--/*h*/",
            "/*a*/¦/*b*/¦/*c*/¦/*d*/¦/*e*/¦/*f*/¦/*g*/¦/*h*/",
        );
        takes(
            &with_body("State: 0 /* \" {0} */ [t/* & /* f */ */] 0 /**/"),
            "/* \" {0} */¦/* & /* f */ */¦/**/",
        );
        takes(&headed("/* name: \"x\" */"), "/* name: \"x\" */");
    }

    #[test]
    fn a_comment_in_an_item_goes_with_it_and_one_in_a_string_is_none() {
        takes(&headed("name: /* a */ \"b\" /* c */"), "name: /* a */ \"b\"¦/* c */");
        takes(
            &headed("name: \"/* a\" tool: \"b */\""),
            "name: \"/* a\"¦tool: \"b */\"",
        );
        let named = "HOA: v1 States: 1 Start: 0 AP: 1 \"/*a*/\" Acceptance: 1 Inf(0) --BODY-- State: 0 [0] 0 --END--";
        takes(named, "");
    }

    #[test]
    fn what_does_not_end_stays() {
        keeps(&headed("/* /* */"), "");
        keeps(&headed("name: \"a"), "");
        keeps(&with_body("State: 0 \"a"), "");
        keeps(&headed("*/"), "");
    }

    #[test]
    fn state_names_go_and_other_strings_stay() {
        takes(&with_body("State: 0 \"a\\\"b\" {0} [t] 0"), "\"a\\\"b\"");
        keeps(&with_body("State: [t] 0 \"a\" {0} 0"), "\"a\"");
        keeps(&with_body("State: 0 \"a\" \"b\""), "\"a\"");
        for body in ["State: \"a\" 0", "State: 0 {0} \"a\"", "State: 0 [t] 0 \"a\"", "\"a\""] {
            keeps(&with_body(body), "");
        }
        let two = format!("{} {}", with_body("State: 0 \"a\""), with_body("State: 0 \"b\""));
        keeps(&two, "\"a\"");
    }

    #[test]
    fn nothing_but_comments_goes_from_what_is_no_text_of_the_format() {
        for text in ["", "AH", "v1 name: \"x\"", "States: 1 name: \"x\" HOA: v1"] {
            keeps(text, "");
        }
        keeps("AH /* a */", "/* a */");
    }

    #[test]
    fn every_line_is_that_of_the_whole_text() {
        let text = headed("\nname: \"x\"\n\n/* a\nb */ x:\n y z:");
        let lines: Vec<usize> = find(text.as_bytes()).iter().map(|extra| extra.line).collect();
        assert_eq!(lines, [2, 4, 5, 6]);
        let rest = without(text.as_bytes(), &find(text.as_bytes()));
        assert!(rest
            .iter()
            .zip(text.as_bytes())
            .all(|(left, was)| left == was || *left == b' '));
        assert_eq!(rest.iter().filter(|&&byte| byte == b'\n').count(), 5);
    }
}
