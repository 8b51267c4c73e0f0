//! `-`: an automaton file from standard input.

use crate::folder::Folder;

/// Each command that takes an automaton file, with `-` in each of its places; the file that comes in, and the first line printed.
const LINES: [(&str, &str, i32, &str); 10] = [
    (
        "listing - g.ba 1",
        "f.ba",
        0,
        "taken 1 states 3 of 4 saved 25 walks 5 8",
    ),
    (
        "listing f.ba - 1",
        "g.ba",
        0,
        "taken 1 states 3 of 4 saved 25 walks 5 8",
    ),
    ("contain - f.ba 0", "g.ba", 1, "differs: place 2, word 0"),
    ("contain g.ba - 0", "f.ba", 1, "differs: place 2, word 0"),
    ("contain g.ba -- - 0", "f.ba", 1, "differs: place 2, word 0"),
    ("open s -", "f.ba", 0, "opened: edition 0, 4 states"),
    ("offer s - 1", "g.ba", 0, "taken: edition 1, states 3 of 4, walks 5 8"),
    ("write - w.ba", "g.ba", 0, "written: 53 bytes"),
    ("show -", "g.ba", 0, "automaton: 3 states, 2 letters, 8 transitions"),
    (
        "contain f.ba - 1",
        "cut.ba",
        2,
        "refused 1: the second file ends inside a record or has no end record",
    ),
];

#[test]
fn every_command_that_takes_an_automaton_file_reads_standard_input() {
    let folder = Folder::new("input");
    folder.write("cut.ba", b"AH\x01");
    for (words, input, status, line) in LINES {
        let run = folder.run_on(input, &words.split(' ').collect::<Vec<_>>());
        assert_eq!(
            (run.status, run.out.lines().next()),
            (status, Some(line)),
            "{words}: {run:?}"
        );
    }
    assert_eq!(folder.names("-"), [""; 0]);
}

#[test]
fn standard_input_is_no_store_and_has_a_limit() {
    let folder = Folder::new("input_limit");
    folder.answers("open s f.ba", 0, "opened: edition 0, 4 states");
    let run = folder.run_on("s", &["show", "-"]);
    assert!(run.status == 2 && run.out.starts_with("refused 2: "), "{run:?}");
    folder.write("long", &vec![0; (1 << 20) + 1]);
    let run = folder.run_on("long", &["show", "-"]);
    assert!(
        run.status == 3 && run.err.starts_with("standard input is longer than any automaton file"),
        "{run:?}"
    );
}

#[test]
fn a_file_named_as_standard_input_has_a_name_with_a_folder() {
    let folder = Folder::new("dash");
    folder.write("-", &folder.read("f.ba"));
    folder.answers("show ./-", 0, "automaton: 4 states, 2 letters, 8 transitions");
    folder.answers(
        "open ./- g.ba",
        2,
        "refused 9: the entry is malformed: its length or a field is out of range, \
        it has a dead state, fewer first states than held ones, or an edition above 183,071",
    );
}
