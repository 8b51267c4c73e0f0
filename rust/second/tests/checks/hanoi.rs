//! Hanoi texts: F and G, what a text means, every length of the buffer. Tokens, faults and labels have modules of their own.

mod faults;
mod labels;
mod tokens;

use second::hanoi_write;

use crate::definitions;
use crate::worked::{f, full, g, Plain};

/// What the buffer holds before a call; no byte of a file.
const FILL: u8 = 0xCD;

/// More bytes of room than any file here needs.
const ROOM: usize = 9_000;

/// The number of a call with so many bytes of room, and the buffer afterwards.
fn ask(text: &[u8], room: usize) -> (u64, Vec<u8>) {
    let mut out = vec![FILL; room];
    (hanoi_write(text, &mut out), out)
}

/// The file that is written, or the number of the refusal, which changes no byte.
fn answer(text: impl AsRef<[u8]>) -> Result<Vec<u8>, u64> {
    let (number, mut out) = ask(text.as_ref(), ROOM);
    let (kind, length) = (number & 0xFF, (number >> 8) as usize);
    let rest = out.split_off(length);
    assert!(
        rest.iter().all(|&byte| byte == FILL),
        "bytes past the file have changed"
    );
    match kind {
        0 => Ok(out),
        _ => {
            assert_eq!(length, 0, "there is room, so no length is needed");
            Err(kind - 100)
        }
    }
}

/// Fails with the texts that are not answered with this refusal.
fn assert_refused<T: AsRef<[u8]>>(refusal: u64, texts: impl IntoIterator<Item = T>) {
    for text in texts {
        let shown = String::from_utf8_lossy(text.as_ref()).into_owned();
        assert_eq!(answer(text), Err(refusal), "{shown}");
    }
}

/// A text of two states and so many propositions with this body.
fn with_body(propositions: usize, body: &str) -> String {
    let names = r#" "p""#.repeat(propositions);
    format!("HOA: v1 States: 2 Start: 0 AP: {propositions}{names} Acceptance: 1 Inf(0) --BODY-- {body} --END--")
}

/// A text with this in place of its two states, and the rest as it is.
fn with_states(states: &str) -> String {
    with_body(1, "").replacen("States: 2", &format!("States: {states}"), 1)
}

/// The text of an automaton with 2 letters, an edge for each transition.
fn text_of(automaton: &Plain) -> String {
    let (states, initial) = (automaton.states, automaton.initial);
    let mut text = format!(
        "HOA: v1\nStates: {states}\nStart: {initial}\nAP: 1 \"a\"\nacc-name: Buchi\nAcceptance: 1 Inf(0)\n--BODY--\n"
    );
    for state in 0..states {
        let mark = if automaton.accepts_at(state) { " {0}" } else { "" };
        text += &format!("State: {state}{mark}\n");
        for (label, letter) in [("!0", 0), ("0", 1)] {
            for to in automaton.targets(state, letter) {
                text += &format!("[{label}] {to}\n");
            }
        }
    }
    text + "--END--\n"
}

#[test]
fn f_and_g_as_texts_give_their_files() {
    for automaton in [f(), g()] {
        assert_eq!(answer(text_of(&automaton)), Ok(definitions::written(&automaton)));
    }
}

#[test]
fn edges_that_overlap_count_once_and_states_come_in_any_order() {
    let body = "State: 1 [0] 0 [t] 0 [0] 0 [!0] 1 State: 0 {0} [f] 1 [0&!0] 1 [t] 0 [0] 0";
    let file = b"AH\x02\x02\x00AF\x00AT\x00\x00\x00AT\x00\x01\x00AT\x01\x00\x00AT\x01\x00\x01AT\x01\x01\x00AE";
    assert_eq!(answer(with_body(1, body)), Ok(file.to_vec()));
}

#[test]
fn a_state_that_is_not_declared_has_no_edges_and_does_not_accept() {
    assert_eq!(answer(with_body(1, "")), Ok(b"AH\x02\x02\x00AE".to_vec()));
    assert_eq!(
        answer(with_body(0, "State: 1 {0}")),
        Ok(b"AH\x02\x01\x00AF\x01AE".to_vec())
    );
    let touching = with_body(1, "").replace("--BODY--  --END--", "--BODY----END--");
    assert!(touching.contains("--BODY----END--"));
    assert_eq!(answer(touching), Ok(b"AH\x02\x02\x00AE".to_vec()));
    let to_it = b"AH\x02\x01\x00AT\x00\x00\x01AE".to_vec();
    assert_eq!(answer(with_body(0, "State: 0 [t] 1")), Ok(to_it));
}

#[test]
fn the_buffer_may_be_exact_or_longer_and_not_shorter() {
    for automaton in [f(), g()] {
        let (text, file) = (text_of(&automaton), definitions::written(&automaton));
        let needed = file.len();
        for room in 0..needed {
            let expected = (116 + 256 * needed as u64, vec![FILL; room]);
            assert_eq!(ask(text.as_bytes(), room), expected);
        }
        for room in needed..needed + 20 {
            let expected = [file.clone(), vec![FILL; room - needed]].concat();
            assert_eq!(ask(text.as_bytes(), room), (256 * needed as u64, expected));
        }
    }
}

#[test]
fn the_text_is_checked_before_the_room() {
    let texts = [
        (17, String::new()),
        (3, with_states("33")),
        (4, with_body(1, "State: 2")),
        (18, with_states("2").replace("AP: 1", "AP: 5")),
    ];
    for (refusal, text) in texts {
        for room in [0, 1, 5, 100] {
            assert_eq!(ask(text.as_bytes(), room), (100 + refusal, vec![FILL; room]));
        }
    }
}

#[test]
fn the_longest_file_comes_from_a_text_with_every_transition() {
    let mut text = String::from("HOA: v1 States: 32 Start: 31 AP: 4 \"\" \"\" \"\" \"\" Acceptance: 1 Inf(0) --BODY--");
    for state in (0..32).rev() {
        text += &format!(" State: {state} {{0}}");
        for to in 0..32 {
            text += &format!("[0|!0]{to}");
        }
    }
    text += " --END--";
    let longest = full(32, 16).file();
    assert_eq!(ask(text.as_bytes(), 82_022), (116 + 256 * 82_023, vec![FILL; 82_022]));
    assert_eq!(ask(text.as_bytes(), 82_023), (256 * 82_023, longest));
}
