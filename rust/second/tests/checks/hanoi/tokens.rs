//! What a token is, and where white space may or must stand.

use super::{answer, assert_refused, with_body};

/// A text without a blank that could be left out.
const SHORT: &str =
    r#"HOA:v1 States:1 Start:0 AP:1"a"acc-name:Buchi Acceptance:1 Inf(0)--BODY--State:0{0}[!0]0--END--"#;

#[test]
fn a_text_without_spare_blanks_is_read() {
    let file = b"AH\x01\x02\x00AF\x00AT\x00\x00\x00AE".to_vec();
    assert_eq!(answer(SHORT), Ok(file));
    let joined = SHORT
        .match_indices(' ')
        .map(|(place, _)| [&SHORT[..place], &SHORT[place + 1..]].concat());
    assert_refused(17, joined);
}

/// Texts whose tokens have one blank between them: two propositions, and none.
const SPACED: [&str; 3] = [
    r#"HOA: v1 States: 2 Start: 1 AP: 2 "a" "" acc-name: Buchi Acceptance: 1 Inf ( 0 ) --BODY-- State: 0 { 0 } [ ! ( 0 & t | 1 ) ] 1 State: 1 --END--"#,
    "HOA: v1 States: 2 Start: 1 AP: 0 acc-name: Buchi Acceptance: 1 Inf ( 0 ) --BODY-- State: 1 State: 0 [ f ] 0 [ t ] 1 --END--",
    "HOA: v1 States: 2 Start: 1 AP: 0 Acceptance: 1 Inf ( 0 ) --BODY-- --END--",
];

/// The tokens of the first of these texts.
fn tokens() -> Vec<&'static str> {
    SPACED[0].split(' ').collect()
}

#[test]
fn white_space_is_needed_only_where_letters_or_digits_would_touch() {
    let mut needed = Vec::new();
    for text in SPACED {
        let expected = answer(text);
        assert!(expected.is_ok(), "{text}");
        for (place, _) in text.match_indices(' ') {
            let (front, behind) = (&text[..place], &text[place + 1..]);
            let touch = front.ends_with(char::is_alphanumeric) && behind.starts_with(char::is_alphanumeric);
            let joined = [front, behind].concat();
            assert_eq!(
                answer(&joined),
                if touch { Err(17) } else { expected.clone() },
                "{joined}"
            );
            needed.extend(touch.then(|| behind.split(' ').next()));
        }
    }
    needed.sort();
    needed.dedup();
    assert_eq!(needed.len(), 7, "{needed:?}");
}

#[test]
fn white_space_may_stand_around_every_token_and_nothing_else_may() {
    let tokens = tokens();
    let expected = answer(tokens.join(" ")).expect("a text");
    for place in 0..=tokens.len() {
        let (front, behind) = (tokens[..place].join(" "), tokens[place..].join(" "));
        for byte in 0..=255_u8 {
            for count in [1, 3] {
                let text = [front.as_bytes(), b" ", &vec![byte; count], b" ", behind.as_bytes()].concat();
                let is_white = [0x20, 0x09, 0x0A, 0x0D].contains(&byte);
                let is_same = answer(&text).as_ref() == Ok(&expected);
                assert_eq!(is_same, is_white, "{byte:02X} before {behind}");
            }
        }
        let text = [tokens[..place].join("\r\n\t "), tokens[place..].join("\n\n")].join("\t");
        assert_eq!(answer(&text), Ok(expected.clone()), "{text}");
    }
}

#[test]
fn white_space_within_a_token_is_refused() {
    let tokens = tokens();
    for (number, token) in tokens.iter().enumerate().filter(|(_, token)| !token.starts_with('"')) {
        for place in 1..token.len() {
            let split = [&token[..place], &token[place..]].join(" ");
            let mut tokens = tokens.clone();
            tokens[number] = &split;
            assert_refused(17, [tokens.join(" ")]);
        }
    }
}

#[test]
fn upper_and_lower_case_differ() {
    let text = SPACED[0];
    for place in (0..text.len()).filter(|&place| text.as_bytes()[place].is_ascii_alphabetic()) {
        let mut changed = text.as_bytes().to_vec();
        changed[place] ^= 0x20;
        let is_in_name = text[..place].matches('"').count() == 1;
        assert_eq!(
            answer(&changed).is_ok(),
            is_in_name,
            "{}",
            String::from_utf8_lossy(&changed)
        );
    }
}

#[test]
fn a_name_has_bytes_20_to_7e_without_quote_and_backslash() {
    let (front, behind) = SHORT.split_once("\"a\"").expect("a name");
    for byte in (0..=255_u8).filter(|&byte| byte != b'"') {
        let text = [front.as_bytes(), b"\"", &[byte], b"\"", behind.as_bytes()].concat();
        let is_inside = (0x20..=0x7E).contains(&byte) && byte != b'\\';
        assert_eq!(answer(&text).is_ok(), is_inside, "{byte:02X}");
    }
    for name in ["\"\"", "\"HOA: v1 --END--\"", &format!("\"{}\"", "x".repeat(5000))] {
        assert!(answer([front, name, behind].concat()).is_ok(), "{name}");
    }
    assert_refused(
        17,
        ["", "\"a", "a\"", "'a'", "a", "\"a\"\"b\"", "\"a\\\"\"", "\"a\" \"b\""]
            .map(|name| [front, name, behind].concat()),
    );
}

#[test]
fn ap_has_exactly_as_many_names_as_it_counts() {
    for count in 0..=6 {
        for names in 0..=6 {
            let text = with_body(names, "").replace(&format!("AP: {names}"), &format!("AP: {count}"));
            let expected = match count {
                5.. => Err(18),
                _ if count != names => Err(17),
                _ => Ok(vec![b'A', b'H', 2, 1 << count, 0, b'A', b'E']),
            };
            assert_eq!(answer(&text), expected, "{text}");
        }
    }
}

#[test]
fn only_white_space_follows_the_end() {
    let text = with_body(1, "State: 0");
    let expected = answer(&text);
    for byte in 0..=255_u8 {
        let longer = [text.as_bytes(), &[byte]].concat();
        let is_white = [0x20, 0x09, 0x0A, 0x0D].contains(&byte);
        assert_eq!(answer(&longer) == expected, is_white, "{byte:02X}");
        assert_eq!(answer(&longer) == Err(17), !is_white, "{byte:02X}");
    }
    assert_refused(17, [[text.as_str(), &text].concat(), [&text, "\n\n0"].concat()]);
    assert_eq!(answer([&text, "\r\n \t\n"].concat()), expected);
}
