//! `show --never`: never claims for SPIN. tests/peers/run gives them to SPIN itself.

use crate::folder::Folder;

/// Two propositions: q follows p at once, and 3 is accepting, has no step and is dead.
const Q_AFTER_P: &[u8] =
    b"AH\x04\x04\x01AF\x01AF\x03AT\x01\x00\x01AT\x01\x02\x01AT\x01\x01\x00AT\x01\x03\x00AT\x00\x02\x01AT\x00\x03\x01\
    AT\x02\x00\x02AT\x02\x01\x02AT\x02\x02\x02AT\x02\x03\x02AT\x01\x03\x03AE";

const CLAIM: &str = "never { /* 4 states, 4 letters */
accept_init:
\tif
\t:: ((p0 && !p1) || (p0 && p1)) -> goto T0_S0
\t:: ((!p0 && !p1) || (!p0 && p1)) -> goto accept_init
\t:: (p0 && p1) -> goto accept_S3
\tfi;
T0_S0:
\tif
\t:: ((!p0 && p1) || (p0 && p1)) -> goto accept_init
\tfi;
T0_S2:
\tif
\t:: (1) -> goto T0_S2
\tfi;
accept_S3:
\tfalse;
}
";

#[test]
fn a_claim_begins_in_the_initial_state_and_has_every_transition() {
    let folder = Folder::new("never");
    folder.write("a.ba", Q_AFTER_P);
    let run = folder.run(&["show", "a.ba", "--never"]);
    assert_eq!((run.status, run.out.as_str(), run.err.as_str()), (0, CLAIM, ""));
    let claim = folder.run_on("h.ba", &["show", "-", "--never"]).out;
    assert_eq!(
        claim,
        "never { /* 1 states, 1 letters */\naccept_init:\n\tif\n\t:: (1) -> goto accept_init\n\tfi;\n}\n"
    );
    folder.answers("open s f.ba", 0, "opened: edition 0, 4 states");
    folder.answers("show s --never", 0, "never { /* 4 states, 2 letters */");
}

#[test]
fn only_powers_of_two_are_letters_of_a_claim() {
    let folder = Folder::new("never_letters");
    for letters in 1..=16u8 {
        folder.write(
            "a.ba",
            &[b"AH\x01".as_slice(), &[letters], b"\x00AF\x00AT\x00\x00\x00AE"].concat(),
        );
        let run = folder.run(&["show", "a.ba", "--never"]);
        if [1, 2, 4, 8, 16].contains(&letters) {
            assert!(run.status == 0 && run.out.starts_with("never {"), "{run:?}");
        } else {
            let text = format!("no never claim: {letters} letters are not the valuations of some propositions");
            assert!(
                run.status == 3 && run.out.is_empty() && run.err.starts_with(&text),
                "{run:?}"
            );
        }
    }
}

#[test]
fn what_has_no_claim_is_told_on_standard_error() {
    let folder = Folder::new("no_claim");
    folder.write("s", &[0; 2061]);
    folder.write("cut.ba", b"AH");
    for (name, number) in [("s", 13), ("cut.ba", 1)] {
        let run = folder.run(&["show", name, "--never"]);
        assert!(run.status == 2 && run.out.is_empty(), "{run:?}");
        assert!(run.err.starts_with(&format!("refused {number}: ")), "{run:?}");
    }
}
