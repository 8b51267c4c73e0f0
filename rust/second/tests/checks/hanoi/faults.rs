//! The first fault in text order, and what lies outside the subset.

use super::{answer, assert_refused, with_body, with_states};

#[test]
fn no_bytes_are_refused_with_17() {
    assert_refused(17, ["", " ", "\n\n", "\0"]);
}

/// A text with this in place of its start, and the rest as it is.
fn with_start(start: &str) -> String {
    with_body(1, "").replacen("Start: 0", &format!("Start: {start}"), 1)
}

#[test]
fn states_outside_its_range_is_refused_with_3_where_the_number_ends() {
    let numbers = [
        "0",
        "33",
        "40",
        "100",
        "255",
        "256",
        "257",
        "258",
        "65538",
        "4294967298",
    ];
    assert_refused(3, numbers.map(with_states));
    assert_refused(3, ["18446744073709551617", &"9".repeat(100_000)].map(with_states));
    let ends = ["33Start:", "33", "0x2", "0\0", &format!("1{}", "0".repeat(1000))];
    assert_refused(3, ends.map(|end| format!("HOA: v1 States: {end}")));
    assert_refused(17, ["3Start:", "32", ""].map(|end| format!("HOA: v1 States: {end}")));
    assert_refused(17, ["033", "00", "02", "-1", "+2", "2.", "1 1", ""].map(with_states));
}

#[test]
fn start_outside_its_range_is_refused_with_3_where_the_number_ends() {
    let numbers = ["2", "9", "32", "256", "257", "4294967296", "18446744073709551616"];
    assert_refused(3, numbers.map(with_start));
    assert_refused(3, ["HOA:v1 States:2 Start:2", "HOA:v1 States:2 Start:2AP:"]);
    assert_refused(17, ["00", "01", "0&1", "0 Start: 1", "0 0", ""].map(with_start));
}

#[test]
fn every_number_of_states_and_every_start_below_it_is_read() {
    for states in 1..=32 {
        for start in 0..states {
            let text = with_states(&states.to_string()).replacen("Start: 0", &format!("Start: {start}"), 1);
            let file = vec![b'A', b'H', states, 2, start, b'A', b'E'];
            assert_eq!(answer(&text), Ok(file), "{text}");
        }
    }
}

#[test]
fn more_than_4_propositions_are_refused_with_18_where_the_number_ends() {
    let start = "HOA: v1 States: 2 Start: 0 AP: ";
    for count in ["5", "6", "10", "16", "256", "257", "4294967296", "18446744073709551616"] {
        let rests = [
            "",
            " \"a\" \"b\" Acceptance: 1 Inf(0) --BODY-- --END--",
            " bad",
            "x",
            "\"a",
            "\0",
        ];
        assert_refused(18, rests.map(|rest| [start, count, rest].concat()));
    }
    let others = ["05", "00", "", "4", "4x", "1 \"a\" 5", "-5"];
    assert_refused(17, others.map(|rest| [start, rest].concat()));
}

#[test]
fn another_state_number_outside_is_refused_with_4_where_it_ends() {
    let bodies = [
        "State: 2",
        "State: 9",
        "State: 0 [0] 2",
        "State: 0 [0] 9State: 0",
        "State: 0 [0] 9&1",
        "State: 0 [0] 9{0}",
        "State: 9 \"x\"",
        "State: 9 State: 9",
        "State: 0 [f] 9",
        "State: 0 [t] 9 [9] 0",
        "State: 0 {0} [0] 256",
        "State: 257",
        "State: 4294967297",
        "State: 0 [t] 18446744073709551616",
    ];
    assert_refused(4, bodies.map(|body| with_body(1, body)));
    let head = with_body(1, "").replace(" --END--", "");
    let ends = ["State: 9", "State:2\0", "State:0[t]2", "State:0[t]9["];
    assert_refused(4, ends.map(|body| [&head, body].concat()));
    let no_numbers = ["State: 09", "State: 00", "State: 0 [0] 09", "State: 0 [9] 9"];
    assert_refused(17, no_numbers.map(|body| with_body(1, body)));
}

/// Bodies outside the subset where there are two states and one proposition.
const BODIES: [&str; 32] = [
    "State: 0 State: 0",
    "State: 0 [0] 1 State: 1 State: 0",
    "[0] 0",
    "[0] 9",
    "[9] 9 State: 9",
    "State: 0 \"x\"",
    "State: \"x\" 0",
    "State: [0] 0",
    "State: 0 {}",
    "State: 0 {0 0}",
    "State: 0 {0}{0}",
    "State: 0 {1}",
    "State: 0 {00}",
    "State: 0 {0",
    "State: 0 [0] 1 {0}",
    "State: 0 [0] {0} 1",
    "State: 0 [0] 1&1",
    "State: 0 [0] 1 1",
    "State: 0 1",
    "State: 0 [0]",
    "State: 0 [] 1",
    "State: 0 [0 1",
    "State: 0 0] 1",
    "State: 0 [[0]] 1",
    "State: 0 [0] [0] 1",
    "State: 0 /* note */",
    "State: 0 [@a] 1",
    "State: 0 --ABORT--",
    "State:: 0",
    "State 0",
    "--BODY--",
    "Start: 0",
];

#[test]
fn bodies_outside_the_subset_are_refused_with_17() {
    assert_refused(17, BODIES.map(|body| with_body(1, body)));
}

/// What is put in place of a part of the header.
const HEADERS: [(&str, &str); 41] = [
    ("HOA: v1", "HOA: v2"),
    ("HOA: v1", "HOA: v 1"),
    ("HOA: v1", "HOA : v1"),
    ("HOA: v1", "HOA:"),
    ("HOA: v1", "HOA: v1 HOA: v1"),
    ("HOA: v1", "HOA: v1 name: \"x\""),
    ("HOA: v1", "HOA: v1 tool: \"x\""),
    ("States: 2", ""),
    ("States: 2", "States: 2 States: 2"),
    ("States: 2 Start: 0", "Start: 0 States: 2"),
    ("Start: 0", ""),
    ("Start: 0", "Start: 0 Start: 1"),
    ("AP: 1 \"p\"", ""),
    ("AP: 1 \"p\"", "AP: 1 \"p\" AP: 1 \"p\""),
    ("AP: 1 \"p\"", "AP: 1 \"p\" Alias: @a 0"),
    ("Acceptance: 1 Inf(0)", ""),
    ("Acceptance: 1 Inf(0)", "Acceptance: 1 Inf(0) Acceptance: 1 Inf(0)"),
    ("Acceptance: 1 Inf(0)", "Acceptance: 1 Inf(0) acc-name: Buchi"),
    ("Acceptance: 1 Inf(0)", "Acceptance: 1 Inf(0) properties: state-acc"),
    ("Acceptance: 1", "acc-name: Buchi acc-name: Buchi Acceptance: 1"),
    ("Acceptance: 1", "acc-name: Acceptance: 1"),
    ("Acceptance: 1", "acc-name: co-Buchi Acceptance: 1"),
    ("Acceptance: 1", "acc-name: all Acceptance: 1"),
    ("Acceptance: 1", "acc-name: Buchi 1 Acceptance: 1"),
    ("Inf(0)", "(Inf(0))"),
    ("Inf(0)", "Fin(0)"),
    ("Inf(0)", "Inf(1)"),
    ("Inf(0)", "Inf(00)"),
    ("Inf(0)", "Inf(!0)"),
    ("Inf(0)", "Inf 0"),
    ("Inf(0)", "Inf(0)&Inf(0)"),
    ("1 Inf(0)", "10 Inf(0)"),
    ("1 Inf(0)", "01 Inf(0)"),
    ("1 Inf(0)", "0 t"),
    ("1 Inf(0)", "2 Inf(0)"),
    ("--BODY--", ""),
    ("--BODY--", "-- BODY --"),
    ("--BODY--", "--BODY--BODY--"),
    ("--END--", ""),
    ("--END--", "--END-"),
    ("--END--", "--END-- --END--"),
];

#[test]
fn headers_outside_the_subset_are_refused_with_17() {
    let text = with_body(1, "");
    for (old, new) in HEADERS {
        let changed = text.replacen(old, new, 1);
        assert_ne!(changed, text, "{old}");
        assert_eq!(answer(&changed), Err(17), "{changed}");
    }
}

/// Places of a text in order, with texts that make a fault of each refusal there.
const PLACES: [(&str, &[(u64, &str)]); 8] = [
    ("HOA: v1", &[(17, "HOA: v2")]),
    (
        " States: 2",
        &[(3, " States: 33"), (3, " States: 0"), (17, " States: 02")],
    ),
    (" Start: 0", &[(3, " Start: 32"), (17, " Start: 00")]),
    (
        " AP: 1 \"p\"",
        &[(18, " AP: 5 \"p\""), (17, " AP: 1 p"), (17, " AP: 2 \"p\"")],
    ),
    (
        " Acceptance: 1 Inf(0) --BODY--",
        &[(17, " Acceptance: 1 Fin(0) --BODY--")],
    ),
    (" State: 0 {0}", &[(4, " State: 2"), (17, " State: 0 {1}"), (17, "")]),
    (" [!0] 1", &[(4, " [!0] 2"), (17, " [!1] 2"), (17, " [!0] 1 State: 0")]),
    (" --END--", &[(17, " --END-- x"), (4, " State: 44 --END--"), (17, "")]),
];

#[test]
fn the_first_of_two_faults_decides() {
    let whole = PLACES.map(|(text, _)| text);
    assert!(answer(whole.concat()).is_ok());
    let mut pairs = 0;
    for (early, (_, faults)) in PLACES.iter().enumerate() {
        for &(refusal, fault) in *faults {
            let mut text = whole;
            text[early] = fault;
            assert_eq!(answer(text.concat()), Err(refusal), "{text:?}");
            for (late, (_, others)) in PLACES.iter().enumerate().skip(early + 1) {
                for (_, other) in *others {
                    let mut text = text;
                    text[late] = other;
                    assert_eq!(answer(text.concat()), Err(refusal), "{text:?}");
                    pairs += 1;
                }
            }
        }
    }
    println!("{pairs} pairs of faults");
}

#[test]
fn every_text_that_breaks_off_is_refused_with_17() {
    let text = with_body(2, "State: 0 {0} [!(0 & t | 1)] 1 State: 1");
    for length in 0..text.len() {
        assert_eq!(answer(&text[..length]), Err(17), "{}", &text[..length]);
    }
}
