//! Each command's yes, no and refused.

use crate::folder::Folder;

#[test]
fn listing_prints_the_documents_lines() {
    let folder = Folder::new("listing");
    folder.answers("listing f.ba g.ba 1", 0, "taken 1 states 3 of 4 saved 25 walks 5 8");
    folder.answers(
        "listing f.ba g.ba 0",
        1,
        "back 0 states 4 of 4 saved 0 walks 4 2 word 0",
    );
    folder.answers("listing j.ba h.ba 0", 1, "back 0 states 2 of 2 saved 0 walks 2 0 word");
    folder.answers("listing f.ba g.ba 15", 2, "refused 8");
    folder.answers("listing f.ba g.ba 256", 2, "refused 8");
    folder.answers("listing f.ba g.ba 18446744073709551616", 2, "refused 8");
    folder.answers("listing dead.ba g.ba 1", 2, "refused 6");
    let refused = folder.run(&["listing", "g.ba", "g.ba", "1"]);
    assert_eq!(refused.out, "refused 14\n");
    assert!(
        refused.err.contains("what to do: offer an automaton with fewer states"),
        "{refused:?}"
    );
}

#[test]
fn listing_says_long_above_65536_bytes() {
    let folder = Folder::new("long");
    folder.write("most.ba", &[0; 65536]);
    folder.write("more.ba", &[0; 65537]);
    folder.answers("listing most.ba g.ba 1", 2, "refused 2");
    folder.answers("listing more.ba g.ba 1", 3, "long");
    folder.answers("listing f.ba more.ba 1", 3, "long");
}

/// Which of the last eleven letters were 1 is told apart by subsets of twelve states, 2,048 of them.
#[test]
fn a_walk_too_long_for_the_listing_is_one_for_a_store() {
    let folder = Folder::new("subsets");
    let mut subsets = b"AH\x0C\x02\x00AT\x00\x00\x00AT\x00\x01\x00AT\x00\x01\x01".to_vec();
    subsets.extend((0..12).flat_map(|state| [b'A', b'F', state]));
    let steps = (1..12).flat_map(|from| [0, 1].map(|letter| [from, letter, (from + 1) % 12]));
    subsets.extend(steps.flat_map(|[from, letter, to]| [b'A', b'T', from, letter, to]));
    folder.write("subsets.ba", &[&subsets, b"AE".as_slice()].concat());
    folder.write("all.ba", b"AH\x01\x02\x00AF\x00AT\x00\x00\x00AT\x00\x01\x00AE");
    let refused = folder.run(&["listing", "subsets.ba", "all.ba", "0"]);
    assert!(refused.status == 2 && refused.out == "refused 10\n", "{refused:?}");
    assert!(
        refused.err.contains("the 1638 slots") && refused.err.contains("keep the entry in a STORE"),
        "{refused:?}"
    );
    folder.answers("open s subsets.ba", 0, "opened: edition 0, 12 states");
    folder.answers("offer s all.ba 0", 0, "taken: edition 1, states 1 of 12, walks 12 2048");
}

#[test]
fn contain_answers_the_documents_cases() {
    let folder = Folder::new("contain");
    folder.answers("contain f.ba g.ba 1", 0, "contained: 5 vertices");
    folder.answers("contain f.ba g.ba 0", 0, "contained: 4 vertices");
    folder.answers("contain g.ba f.ba 0", 1, "differs: place 2, word 0");
    folder.answers("contain g.ba f.ba 1", 0, "contained: 8 vertices");
    folder.answers("contain h.ba j.ba 0", 1, "differs: place 0, the empty word");
    folder.answers("contain h.ba j.ba 1", 0, "contained: 2 vertices");
    folder.answers("contain f.ba g.ba 14", 0, "contained: 18 vertices");
}

/// Lines of contain, with the status and the first line printed.
const CONTAIN: [(&str, i32, &str); 9] = [
    (
        "contain cut.ba g.ba 1",
        2,
        "refused 1: the first file ends inside a record or has no end record",
    ),
    (
        "contain g.ba cut.ba 1",
        2,
        "refused 1: the second file ends inside a record or has no end record",
    ),
    (
        "contain f.ba h.ba 1",
        2,
        "refused 7: the two automata have different numbers of letters",
    ),
    ("contain f.ba g.ba 15", 2, "refused 8: the bound is above 14"),
    ("contain f.ba g.ba 4294967296", 2, "refused 8: the bound is above 14"),
    (
        "contain g.ba f.ba 1 --slots 7",
        2,
        "refused 10: the walk needs more than the 7 slots that it has",
    ),
    ("contain --slots=8 g.ba f.ba 1", 0, "contained: 8 vertices"),
    (
        "contain g.ba f.ba 0 --slots 0",
        2,
        "refused 10: the walk needs more than the 0 slots that it has",
    ),
    (
        "contain g.ba f.ba 1 --slots 99999999999999999999",
        0,
        "contained: 8 vertices",
    ),
];

#[test]
fn contain_refuses_with_number_and_advice() {
    let folder = Folder::new("contain_refuses");
    folder.write("cut.ba", b"AH\x01");
    for (words, status, line) in CONTAIN {
        folder.answers(words, status, line);
    }
    let refused = folder.run(&["contain", "f.ba", "g.ba", "15"]);
    assert_eq!(
        refused.out.lines().nth(1),
        Some("what to do: give a bound from 0 to 14")
    );
    assert_eq!(refused.err, "");
}

#[test]
fn an_entry_is_opened_offered_to_and_asked() {
    let folder = Folder::new("entry");
    folder.answers("open s f.ba", 0, "opened: edition 0, 4 states");
    folder.answers("open s g.ba", 2, "refused 12: the entry is open already");
    folder.answers("offer s g.ba 0", 1, "back: walks 4 2, word 0");
    folder.answers(
        "offer s h.ba 0",
        2,
        "refused 7: the two automata have different numbers of letters",
    );
    folder.answers("show s", 0, "entry: edition 0, first edition of 4 states");
    folder.answers("offer s g.ba 1", 0, "taken: edition 1, states 3 of 4, walks 5 8");
    folder.answers("show s", 0, "entry: edition 1, first edition of 4 states");
    folder.answers("verdict s  0,1", 0, "yes: the held automaton accepts the word");
    folder.answers("verdict s  0", 1, "no: the held automaton does not accept the word");
    folder.answers("verdict s 1 0", 0, "yes: the held automaton accepts the word");
    for (stem, cycle) in [("", ""), ("2", "0"), ("0", "256"), ("0", "99999999999999999999")] {
        let run = folder.run(&["verdict", "s", stem, cycle]);
        assert!(run.status == 2 && run.out.starts_with("refused 15: "), "{run:?}");
    }
    assert_eq!(folder.names("s"), ["s", "s.lock"]);
}

#[test]
fn an_offer_that_forgets_a_word_is_turned_down_forward() {
    let folder = Folder::new("forward");
    folder.answers("open s both.ba", 0, "opened: edition 0, 2 states");
    folder.answers("offer s zero.ba 0", 1, "forward: walk 1, word 1");
}

#[test]
fn a_refused_open_makes_no_store() {
    let folder = Folder::new("refused_open");
    folder.answers(
        "open s dead.ba",
        2,
        "refused 6: the file has a dead state: a run reaches it, and none from it reaches an accepting state on a cycle",
    );
    assert_eq!(folder.names("s"), [""; 0]);
}

#[test]
fn an_empty_entry_is_shown_opened_and_not_offered_to() {
    let folder = Folder::new("empty_entry");
    folder.write("s", &[0; 2061]);
    folder.answers("show s", 0, "entry: empty");
    folder.answers("offer s g.ba 1", 2, "refused 13: the entry is empty");
    folder.answers("verdict s 0 0", 2, "refused 13: the entry is empty");
    folder.answers("open s f.ba", 0, "opened: edition 0, 4 states");
}

#[test]
fn show_marks_dead_states_and_refuses_broken_files() {
    let folder = Folder::new("show");
    let shown = folder.run(&["show", "dead.ba"]);
    let lines: Vec<&str> = shown.out.lines().collect();
    assert_eq!(lines[0], "automaton: 1 states, 1 letters, 0 transitions");
    assert_eq!(
        lines[3],
        "dead: 0 (contain, open and offer refuse this automaton with 6)"
    );
    assert_eq!(lines[4..], ["fixed form: yes"]);
    folder.write("broken.ba", b"AH\x01\x01\x00AF\x01");
    folder.answers(
        "show broken.ba",
        2,
        "refused 4: the file uses a state or a letter that its header does not have",
    );
    folder.write("empty.ba", b"");
    folder.answers(
        "show empty.ba",
        2,
        "refused 1: the file ends inside a record or has no end record",
    );
}

#[test]
fn an_automaton_file_as_long_as_a_store_is_shown_as_one() {
    let folder = Folder::new("as_long");
    // 5 bytes of header, 3 accepting records, 409 transitions, 2 bytes of end: 2,061.
    let mut file = b"AH\x10\x02\x00AF\x00AF\x01AF\x02".to_vec();
    let triples = (0..409u16).map(|number| [number >> 5, number >> 4 & 1, number & 15].map(|field| field as u8));
    file.extend(triples.flat_map(|[from, letter, to]| [b'A', b'T', from, letter, to]));
    file.extend(b"AE");
    assert_eq!(file.len(), 2061);
    folder.write("a.ba", &file);
    folder.answers("show a.ba", 0, "automaton: 16 states, 2 letters, 409 transitions");
}

#[test]
fn the_version_is_printed_for_people_and_for_programs() {
    let folder = Folder::new("version");
    let version = env!("CARGO_PKG_VERSION");
    folder.answers("--version", 0, &format!("edition {version}"));
    let object = format!("{{\"command\":null,\"answer\":\"version\",\"status\":0,\"version\":\"{version}\"}}");
    folder.answers("--version --json", 0, &object);
}
