//! Hanoi texts: `hanoi`, texts in the place of automaton files, `show --hoa`, and what `--drop-extra` takes out.

use std::ffi::OsStr;
use std::fs;
use std::path::{Path, PathBuf};

use crate::folder::{Folder, Run, ROOT};
use crate::write::{survives_faults, survives_kills, survives_stops_without_out};

/// The text of response in examples/, as a translator prints it.
const TRANSLATED: &str = include_str!("../../../../examples/translated/response.hoa");

/// What is taken out of it.
const TAKEN_OUT: &str = "\
taken out of line 2: tool: \"translator\" \"1.0\"
taken out of line 3: name: \"G(p -> F q), \\\"every p is answered by q\\\"\"
taken out of line 9: properties: trans-labels explicit-labels state-acc
taken out of line 10: properties: complete deterministic stutter-invariant
taken out of line 12: /* In state 1 an answer is due. */
taken out of line 13: \"idle\"
taken out of line 16: \"asked\"
";

/// The automaton files of examples/ and of its folders.
fn examples() -> Vec<PathBuf> {
    let examples = Path::new(ROOT).join("examples");
    let items = [examples.clone(), examples.join("dead")].map(|place| fs::read_dir(place).expect("examples"));
    let paths = items.into_iter().flatten().map(|item| item.expect("an example").path());
    let files: Vec<PathBuf> = paths
        .filter(|path| path.extension() == Some(OsStr::new("ba")))
        .collect();
    assert!(files.len() >= 20, "{files:?}");
    files
}

/// A folder with response as a translator prints it, a text of another acceptance, and texts with a value out of range.
fn with_texts(test: &str) -> Folder {
    let folder = Folder::new(test);
    folder.write("translated.hoa", TRANSLATED.as_bytes());
    fs::copy(format!("{ROOT}/examples/response.ba"), folder.path("response.ba")).expect("an example");
    let f = String::from_utf8(folder.read("f.hoa")).expect("a text");
    for (name, old, new) in [
        ("rabin.hoa", "1 Inf(0)", "2 Fin(0) & Inf(1)"),
        ("states.hoa", "States: 4", "States: 33"),
        ("target.hoa", "[t] 3", "[t] 4"),
        ("five.hoa", "AP: 1", "AP: 5"),
        ("edges.hoa", "[t] 3", "[t] 3 {0}"),
        ("dead.hoa", " {0}", ""),
    ] {
        assert_eq!(f.matches(old).count(), 1, "{old}");
        folder.write(name, f.replace(old, new).as_bytes());
    }
    folder
}

/// The words of a line.
fn run(folder: &Folder, words: &str) -> Run {
    folder.run(&words.split(' ').collect::<Vec<_>>())
}

#[test]
fn without_out_the_file_alone_stands_on_standard_output() {
    let folder = with_texts("hanoi_output");
    let f = folder.read("f.ba");
    for run in [
        folder.run(&["hanoi", "f.hoa"]),
        folder.run_on("f.hoa", &["hanoi", "-"]),
        folder.run(&["hanoi", "f.hoa", "--drop-extra"]),
    ] {
        assert_eq!(
            (run.status, run.out.as_bytes(), run.err.as_str()),
            (0, f.as_slice(), ""),
            "{run:?}"
        );
    }
    let run = folder.run(&["hanoi", "rabin.hoa"]);
    assert!(run.status == 2 && run.out.is_empty(), "{run:?}");
    assert!(
        run.err.starts_with("refused 17: ") && run.err.contains("\nwhat to do: "),
        "{run:?}"
    );
    let run = folder.run_untold("hanoi f.hoa");
    assert!(
        run.status == 3 && run.err.starts_with("cannot write the answer: "),
        "{run:?}"
    );
}

#[test]
fn out_is_made_or_replaced_and_may_be_the_text_itself() {
    let folder = with_texts("hanoi_out");
    let f = folder.read("f.ba");
    folder.write("old.ba", &[b'A'; 100_000]);
    for words in ["hanoi f.hoa new.ba", "hanoi f.hoa old.ba", "hanoi f.hoa f.hoa"] {
        assert_eq!(
            run(&folder, words),
            Run {
                status: 0,
                out: "written: 50 bytes\n".into(),
                err: String::new()
            }
        );
    }
    for name in ["new.ba", "old.ba", "f.hoa"] {
        assert_eq!(folder.read(name), f, "{name}");
        assert_eq!(folder.names(name), [name]);
    }
    let run = folder.run_untold("hanoi g.hoa new.ba");
    assert!(
        run.status == 4
            && run
                .err
                .starts_with("the new new.ba is in place (written: 53 bytes), but cannot write the answer: "),
        "{run:?}"
    );
    assert_eq!(folder.read("new.ba"), folder.read("g.ba"));
}

#[test]
fn a_kill_at_any_call_leaves_the_old_out_or_the_new_one() {
    survives_kills("hanoi_kill", &["hanoi", "j.hoa", "a.ba"]);
}

#[test]
fn a_fault_of_the_disk_is_told_and_leaves_the_old_out_or_says_that_it_is_replaced() {
    survives_faults("hanoi_fault", &["hanoi", "j.hoa", "a.ba"]);
}

#[test]
fn where_there_was_no_out_a_stop_leaves_none_or_the_whole_new_one() {
    survives_stops_without_out("hanoi_stop_new", &["hanoi", "j.hoa", "new.ba"]);
}

#[test]
fn a_refused_text_leaves_out_as_it_was() {
    let folder = with_texts("hanoi_refused");
    let (g, names) = (folder.read("g.ba"), folder.names(""));
    for (text, number) in [("rabin", 17), ("states", 3), ("target", 4), ("five", 18), ("edges", 17)] {
        for words in [
            "hanoi TEXT.hoa g.ba",
            "hanoi TEXT.hoa new.ba",
            "hanoi --drop-extra TEXT.hoa g.ba",
            "write TEXT.hoa g.ba",
        ] {
            let run = run(&folder, &words.replace("TEXT", text));
            assert!(
                run.status == 2 && run.out.starts_with(&format!("refused {number}: the text ")),
                "{words}: {run:?}"
            );
            assert_eq!(run.err, "", "{words}");
        }
    }
    assert_eq!((folder.read("g.ba"), folder.names("")), (g, names));
}

#[test]
fn a_store_is_no_out_and_a_text_as_long_as_a_store_is_one() {
    let folder = with_texts("hanoi_no_out");
    folder.answers("open s f.ba", 0, "opened: edition 0, 4 states");
    let store = folder.read("s");
    let run = folder.run(&["hanoi", "g.hoa", "s"]);
    assert!(run.status == 3 && run.err.starts_with("cannot replace s: "), "{run:?}");
    assert_eq!(folder.read("s"), store);
    let mut long = folder.read("f.hoa");
    let end = long.len();
    long.splice(0..0, vec![b' '; 2061 - end]);
    folder.write("long.hoa", &long);
    folder.answers("show long.hoa", 0, "automaton: 4 states, 2 letters, 8 transitions");
    folder.answers("write f.ba long.hoa", 0, "written: 50 bytes");
    assert_eq!(folder.read("long.hoa"), folder.read("f.ba"));
}

/// Each command that takes an automaton file, with texts in its places; what is printed on standard output, and the texts.
const LINES: [(&str, i32, &str, &str); 10] = [
    ("contain g.hoa f.ba 0", 1, "differs: place 2, word 0\n", "a Hanoi text: FIRST"),
    ("contain g.ba f.hoa 0", 1, "differs: place 2, word 0\n", "a Hanoi text: SECOND"),
    ("contain g.hoa f.hoa 1", 0, "contained: 8 vertices\n", "Hanoi texts: FIRST, SECOND"),
    ("open s f.hoa", 0, "opened: edition 0, 4 states\n", "a Hanoi text: FILE"),
    (
        "offer s g.hoa 1",
        0,
        "taken: edition 1, states 3 of 4, walks 5 8\n",
        "a Hanoi text: FILE",
    ),
    (
        "offer s g.hoa 1",
        2,
        "refused 14: the offer is not smaller than the held automaton, or edition 183,071 is held already\n\
         what to do: offer an automaton with fewer states, or with as many states and fewer transitions\n",
        "a Hanoi text: FILE",
    ),
    ("write j.hoa w.ba", 0, "written: 20 bytes\n", "a Hanoi text: FILE"),
    (
        "show h.hoa",
        0,
        "automaton: 1 states, 1 letters, 1 transitions\ninitial: 0\naccepting: 0\ndead: none\nfixed form: no\n0 on 0 to 0\n",
        "a Hanoi text: FILE",
    ),
    (
        "contain f.hoa h.hoa 1",
        2,
        "refused 7: the two automata have different numbers of letters\nwhat to do: write both automata over the same letters\n",
        "Hanoi texts: FIRST, SECOND",
    ),
    (
        "open t dead.hoa",
        2,
        "refused 6: the file has a dead state: a run reaches it, and none from it reaches an accepting state on a cycle\n\
         what to do: remove the dead states and the transitions to them; `./edition show` marks them\n",
        "a Hanoi text: FILE",
    ),
];

#[test]
fn every_command_takes_texts_in_the_place_of_automaton_files_and_says_so() {
    let folder = with_texts("hanoi_taken");
    for (words, status, out, texts) in LINES {
        let run = run(&folder, words);
        let wanted = format!("{out}read as {texts}\n");
        assert_eq!(
            (run.status, run.out, run.err),
            (status, wanted, String::new()),
            "{words}"
        );
    }
    assert_eq!(folder.read("w.ba"), folder.read("j.ba"));
    let run = folder.run_on("g.hoa", &["contain", "-", "f.ba", "0"]);
    assert_eq!(run.out, "differs: place 2, word 0\nread as a Hanoi text: FIRST\n");
    folder.answers("verdict s 1 0", 0, "yes: the held automaton accepts the word");
}

/// The line of listing, the bytes of write, a picture and a claim stand alone on standard output.
#[test]
fn where_standard_output_is_for_something_else_texts_are_named_beside_it() {
    let folder = with_texts("hanoi_beside");
    for (words, plain, texts) in [
        ("listing f.hoa g.ba 1", "listing f.ba g.ba 1", "a Hanoi text: FIRST"),
        (
            "listing f.hoa g.hoa 0",
            "listing f.ba g.ba 0",
            "Hanoi texts: FIRST, OFFER",
        ),
        ("write g.hoa", "write g.ba", "a Hanoi text: FILE"),
        ("show g.hoa --dot", "show g.ba --dot", "a Hanoi text: FILE"),
        ("show g.hoa --never", "show g.ba --never", "a Hanoi text: FILE"),
        ("show g.hoa --hoa", "show g.ba --hoa", "a Hanoi text: FILE"),
        (
            "contain g.hoa f.ba 0 --dot",
            "contain g.ba f.ba 0 --dot",
            "a Hanoi text: FIRST",
        ),
    ] {
        let (run, plain) = (run(&folder, words), run(&folder, plain));
        assert_eq!((run.status, &run.out), (plain.status, &plain.out), "{words}");
        assert_eq!(run.err, format!("{}read as {texts}\n", plain.err), "{words}");
    }
    let refused = run(&folder, "listing g.hoa g.hoa 1");
    assert_eq!((refused.status, refused.out.as_str()), (2, "refused 14\n"));
    assert!(
        refused.err.starts_with("refused 14: ") && refused.err.ends_with("\nread as Hanoi texts: FIRST, OFFER\n"),
        "{refused:?}"
    );
}

#[test]
fn a_text_that_is_refused_is_told_with_its_operand_and_place_and_changes_nothing() {
    let folder = with_texts("hanoi_told");
    folder.answers("open s f.ba", 0, "opened: edition 0, 4 states");
    let names = folder.names("");
    for (words, operand) in [
        ("contain states.hoa g.ba 1", "FIRST"),
        ("contain g.ba states.hoa 1", "SECOND"),
        ("contain dead.ba states.hoa 15", "SECOND"),
        ("listing states.hoa g.ba 1", "FIRST"),
        ("listing f.ba states.hoa 1", "OFFER"),
        ("open new states.hoa", "FILE"),
        ("offer s states.hoa 1", "FILE"),
        ("write states.hoa new", "FILE"),
        ("show states.hoa", "FILE"),
    ] {
        let run = run(&folder, words);
        let wanted = format!(
            "refused 3: the text has States or Start outside its range\n\
             where: {operand}, line 2, column 9: `33` is outside: States is 1 to 32\n\
             what to do: give States from 1 to 32, and a Start below States\n\
             read as a Hanoi text: {operand}\n"
        );
        assert_eq!((run.status, run.out, run.err), (2, wanted, String::new()), "{words}");
    }
    assert_eq!(folder.names(""), names);
    folder.answers("show s", 0, "entry: edition 0, first edition of 4 states");
    for words in ["show states.hoa --dot", "show states.hoa --hoa", "write states.hoa"] {
        let run = run(&folder, words);
        assert!(
            run.status == 2 && run.out.is_empty() && run.err.starts_with("refused 3: the text "),
            "{words}: {run:?}"
        );
    }
}

/// What is wrong with a text, where, and what helps.
#[test]
fn advice_names_the_likely_cause() {
    let folder = with_texts("hanoi_advice");
    folder.write("alias.hoa", b"HOA: v1\nStates: 1\nStart: 0\nAP: 0\nAlias: @a t\n");
    folder.write(
        "implicit.hoa",
        b"HOA: v1 States: 1 Start: 0 AP: 0 Acceptance: 1 Inf(0) --BODY--\nState: 0\n0\n--END--",
    );
    folder.write("two.hoa", &[folder.read("f.hoa"), folder.read("g.hoa")].concat());
    folder.write("capital.hoa", b"HOA: v1 properties: Weak States: 1");
    folder.write("branch.hoa", b"HOA: v1 States: 2 Start: 0&1");
    folder.write("newer.hoa", b"HOA: v1.1 States: 2");
    for (text, place, advice) in [
        (
            "translated",
            "line 2, column 1: the header item `tool:`, which is not read",
            "`./edition hanoi --drop-extra TEXT OUT` takes out",
        ),
        (
            "rabin",
            "line 6, column 13: `2` where `1` should stand",
            "`ltl2tgba -B -H`",
        ),
        (
            "edges",
            "line 18, column 9: `{` behind a target",
            "acceptance on states",
        ),
        (
            "alias",
            "line 5, column 1: the header item `Alias:`",
            "aliases are not read",
        ),
        (
            "implicit",
            "line 3, column 1: `0` without a label",
            "implicit labels are not read",
        ),
        (
            "two",
            "line 20, column 1: `HOA:` behind `--END--`",
            "one automaton in a text",
        ),
        (
            "capital",
            "line 1, column 9: the header item `properties:` with `Weak`",
            "begins with a capital may change what the automaton accepts",
        ),
        (
            "branch",
            "line 1, column 27: `&` behind the initial state",
            "one initial state",
        ),
        (
            "newer",
            "line 1, column 8: `.` where `States:` should stand",
            "version 1 of the format: HOA: v1",
        ),
    ] {
        let run = run(&folder, &format!("hanoi {text}.hoa o.ba"));
        let lines: Vec<&str> = run.out.lines().collect();
        assert!(
            lines[1].starts_with(&format!("where: TEXT, {place}")),
            "{text}: {run:?}"
        );
        assert!(
            lines[2].starts_with("what to do: ") && lines[2].contains(advice),
            "{text}: {run:?}"
        );
        assert_eq!(
            (run.status, lines.len(), run.err.as_str()),
            (2, 3, ""),
            "{text}: {run:?}"
        );
    }
    let run = run(&folder, "hanoi f.ba o.ba");
    assert!(
        run.status == 2 && run.out.contains("an automaton file is for `./edition write`"),
        "{run:?}"
    );
}

/// What may be taken out is listed by its kinds, each with its first line, also where something else comes first in the text.
#[test]
fn advice_lists_what_drop_extra_takes_out() {
    let folder = with_texts("hanoi_advice_extra");
    let listed = "here `tool:` (line 2), `name:` (line 3), `properties:` (line 9 and others), a comment (line 12), a state name (line 13 and others)";
    let run1 = run(&folder, "contain translated.hoa g.ba 1");
    assert!(run1.out.contains(&format!("words, {listed}\n")), "{run1:?}");
    folder.write("both.hoa", TRANSLATED.replace("HOA: v1", "HOA: v2").as_bytes());
    let run2 = run(&folder, "hanoi both.hoa o.ba");
    assert!(
        run2.out
            .contains("TEXT, line 1, column 6: `v2` where `v1` should stand\n"),
        "{run2:?}"
    );
    assert!(
        run2.out
            .contains("of the format: HOA: v1; `./edition hanoi --drop-extra TEXT OUT` takes out"),
        "{run2:?}"
    );
    assert!(run2.out.contains(listed), "{run2:?}");
    folder.write("front.hoa", format!("/* x */{TRANSLATED}").as_bytes());
    let run3 = run(&folder, "hanoi front.hoa o.ba");
    assert!(
        run3.out
            .contains("what to do: `./edition hanoi --drop-extra TEXT OUT` takes out"),
        "{run3:?}"
    );
    folder.write("abort.hoa", TRANSLATED.replace("--END--", "--ABORT--").as_bytes());
    let aborted = run(&folder, "hanoi abort.hoa o.ba");
    let advice = "`--ABORT--` stands further on\nwhat to do: run the translator again: it gave up, and this text is no whole automaton\n";
    assert!(aborted.out.ends_with(advice), "{aborted:?}");
    let many: String = ('a'..='j').map(|letter| format!("{letter}:\n")).collect();
    folder.write("many.hoa", format!("HOA: v1\n{many}").as_bytes());
    let run4 = run(&folder, "hanoi many.hoa o.ba");
    assert!(
        run4.out.contains("here `a:` (line 2), ") && run4.out.contains("`h:` (line 9), 2 more\n"),
        "{run4:?}"
    );
}

#[test]
fn drop_extra_lists_what_it_takes_out_beside_the_file_or_below_the_answer() {
    let folder = with_texts("hanoi_drop");
    let response = folder.read("response.ba");
    for run in [
        folder.run(&["hanoi", "--drop-extra", "translated.hoa"]),
        folder.run_on("translated.hoa", &["hanoi", "-", "--drop-extra"]),
    ] {
        assert_eq!(
            (run.status, run.out.as_bytes(), run.err.as_str()),
            (0, response.as_slice(), TAKEN_OUT),
            "{run:?}"
        );
    }
    let run = folder.run(&["hanoi", "--drop-extra", "translated.hoa", "new.ba"]);
    let length = response.len();
    assert_eq!(
        (run.status, run.out, run.err),
        (0, format!("written: {length} bytes\n{TAKEN_OUT}"), String::new())
    );
    assert_eq!(folder.read("new.ba"), response);
    let run = folder.run(&["hanoi", "--drop-extra", "translated.hoa", "--json"]);
    let dropped = "\"dropped\":[{\"line\":2,\"text\":\"tool: \\\"translator\\\" \\\"1.0\\\"\"},";
    assert!(
        run.status == 0 && run.err.is_empty() && run.out.contains(dropped),
        "{run:?}"
    );
    assert_eq!(run.out.matches("{\"line\":").count(), 7, "{run:?}");
}

/// What is left keeps its place, and only what has no effect goes.
#[test]
fn what_is_left_after_drop_extra_is_still_judged_by_the_kernel() {
    let folder = with_texts("hanoi_drop_refused");
    for (old, new, place) in [
        (
            "acc-name: Buchi",
            "acc-name: co-Buchi",
            "line 7, column 11: `co-Buchi` where `Buchi` should stand",
        ),
        (
            "properties: complete",
            "properties: Complete",
            "line 10, column 1: the header item `properties:` with `Complete`",
        ),
        ("name:", "Name:", "line 3, column 1: the header item `Name:`"),
        ("[1] 0", "[1] 0 {0}", "line 17, column 7: `{` behind a target"),
        ("1.0\"", "1.0", "line 2, column 1: the header item `tool:`"),
        (
            "due. */",
            "due.",
            "line 12, column 1: a string or comment that does not end",
        ),
        (
            "[1] 0",
            "[1] 0 \"x\"",
            "line 17, column 7: a string, which may stand behind a state's number only",
        ),
        (
            "\"idle\"",
            "\"idle\"\"b\"",
            "line 13, column 16: the state name \"b\", which is not read",
        ),
        (
            "properties: trans",
            "spot.highlight.edges: 1 1 properties: trans",
            "line 9, column 1: `spot` where `--BODY--` should stand",
        ),
        (
            "[1] 0",
            "--ABORT--",
            "line 17, column 1: `--ABORT--`: the translator has given up",
        ),
    ] {
        let text = TRANSLATED.replacen(old, new, 1);
        assert_ne!(text, TRANSLATED, "{old}");
        folder.write("t.hoa", text.as_bytes());
        let run = run(&folder, "hanoi --drop-extra t.hoa new.ba");
        assert!(
            run.status == 2 && run.out.contains(&format!("\nwhere: TEXT, {place}")),
            "{new}: {run:?}"
        );
        assert!(
            !run.out.contains("--drop-extra") && run.out.contains("\ntaken out of line "),
            "{new}: {run:?}"
        );
    }
    assert_eq!(folder.names("new"), [""; 0]);
}

#[test]
fn every_example_is_printed_as_a_text_that_gives_it_back() {
    let folder = Folder::new("hanoi_examples");
    for path in examples() {
        let shown = folder.run(&[OsStr::new("show"), path.as_os_str(), OsStr::new("--hoa")]);
        assert!(shown.status == 0 && shown.err.is_empty(), "{path:?}: {shown:?}");
        folder.write("t.hoa", shown.out.as_bytes());
        folder.run(&[OsStr::new("write"), path.as_os_str(), OsStr::new("w.ba")]);
        let run = folder.run(&["hanoi", "t.hoa", "h.ba"]);
        assert_eq!(run.status, 0, "{path:?}: {run:?}");
        assert_eq!(folder.read("h.ba"), folder.read("w.ba"), "{path:?}");
        let beside = fs::read_to_string(path.with_extension("hoa")).expect("the text beside it");
        let named = [("\"p0\"", "\"p\""), ("\"p1\"", "\"q\""), ("\"p2\"", "\"r\"")];
        let renamed = named.iter().fold(shown.out, |text, (old, new)| text.replace(old, new));
        assert_eq!(beside, renamed, "{path:?}");
    }
}

/// Three states over two propositions: 1 is initial, 2 accepts, has no edge and is dead.
const PRINTED: &str = "HOA: v1
States: 3
Start: 1
AP: 2 \"p0\" \"p1\"
acc-name: Buchi
Acceptance: 1 Inf(0)
--BODY--
State: 0
  [t] 0
State: 1
  [!0 | 1] 0
  [0&!1 | !0&1] 2
State: 2 {0}
--END--
";

#[test]
fn a_text_has_a_line_for_each_state_and_one_for_each_target() {
    let folder = Folder::new("hanoi_printed");
    folder.write("t.hoa", PRINTED.as_bytes());
    folder.answers("hanoi t.hoa t.ba", 0, "written: 55 bytes");
    let run = folder.run(&["show", "t.ba", "--hoa"]);
    assert_eq!((run.status, run.out.as_str(), run.err.as_str()), (0, PRINTED, ""));
    folder.answers("open s f.ba", 0, "opened: edition 0, 4 states");
    let held = folder.run(&["show", "s", "--hoa"]);
    assert_eq!(held.out, folder.run(&["show", "f.ba", "--hoa"]).out);
    let json = folder.run(&["show", "t.ba", "--hoa", "--json"]);
    let field = format!("\"hoa\":\"{}\"", PRINTED.replace('"', "\\\"").replace('\n', "\\n"));
    assert!(json.status == 0 && json.out.contains(&field), "{json:?}");
}

#[test]
fn only_powers_of_two_are_letters_of_a_text() {
    let folder = Folder::new("hanoi_letters");
    for letters in 1..=16u8 {
        let file = [b"AH\x01".as_slice(), &[letters], b"\x00AF\x00AT\x00\x00\x00AE"].concat();
        folder.write("a.ba", &file);
        let run = folder.run(&["show", "a.ba", "--hoa"]);
        if [1, 2, 4, 8, 16].contains(&letters) {
            folder.write("t.hoa", run.out.as_bytes());
            folder.answers("hanoi t.hoa b.ba", 0, "written: 15 bytes");
            assert_eq!(folder.read("b.ba"), file, "{run:?}");
        } else {
            let text = format!("no Hanoi text: {letters} letters are not the valuations of some propositions");
            assert!(
                run.status == 3 && run.out.is_empty() && run.err.starts_with(&text),
                "{run:?}"
            );
        }
    }
    folder.write("s", &[0; 2061]);
    let run = folder.run(&["show", "s", "--hoa"]);
    assert!(
        run.status == 2 && run.out.is_empty() && run.err.starts_with("refused 13: "),
        "{run:?}"
    );
}

#[test]
fn a_text_that_is_too_long_is_not_read() {
    let folder = with_texts("hanoi_long");
    let mut text = folder.read("f.hoa");
    text.resize(1 << 20, b' ');
    folder.write("most.hoa", &text);
    text.push(b' ');
    folder.write("more.hoa", &text);
    for words in [
        "hanoi NAME o.ba",
        "contain NAME f.ba 0",
        "listing f.ba NAME 0",
        "show NAME",
    ] {
        let most = run(&folder, &words.replace("NAME", "most.hoa"));
        assert!(most.status < 3, "{words}: {most:?}");
        let more = run(&folder, &words.replace("NAME", "more.hoa"));
        let text = "more.hoa is a Hanoi text of over 1048576 bytes: ";
        assert!(
            more.status == 3 && more.out.is_empty() && more.err.starts_with(text),
            "{words}: {more:?}"
        );
    }
}

/// Texts longer than the files that listing takes, of a short file and of a long one.
#[test]
fn listing_goes_by_the_length_of_the_file_that_a_text_gives() {
    let folder = with_texts("hanoi_listing");
    let mut text = folder.read("f.hoa");
    text.resize(100_000, b'\n');
    folder.write("wide.hoa", &text);
    folder.answers("listing wide.hoa g.ba 1", 0, "taken 1 states 3 of 4 saved 25 walks 5 8");
    let mut long =
        "HOA: v1 States: 32 Start: 0 AP: 4 \"a\" \"b\" \"c\" \"d\" Acceptance: 1 Inf(0) --BODY--".to_string();
    for state in 0..32 {
        long += &format!(" State: {state} {{0}}");
        long.extend((0..32).map(|target| format!("[t]{target}")));
    }
    folder.write("long.hoa", format!("{long} --END--").as_bytes());
    folder.answers("listing long.hoa g.ba 1", 3, "long");
}

/// A file that begins with another letter is no text, whatever follows.
#[test]
fn other_files_are_no_texts() {
    let folder = with_texts("hanoi_others");
    folder.write("x.hoa", &[b"xHOA: v1".as_slice(), &folder.read("f.hoa")].concat());
    folder.answers(
        "show x.hoa",
        2,
        "refused 2: the file has an unknown or misplaced mark, or bytes after its end record",
    );
    folder.write("H", b"H");
    let run = folder.run(&["show", "H"]);
    assert!(run.status == 2 && run.out.starts_with("refused 17: "), "{run:?}");
    folder.write("white", &[b' '; 2061]);
    let run = folder.run(&["show", "white"]);
    assert!(run.status == 2 && run.out.starts_with("refused 9: "), "{run:?}");
}
