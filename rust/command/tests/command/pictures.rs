//! `--dot`: pictures of automata and of lag-checking graphs.

use std::fs;
use std::path::PathBuf;

use crate::folder::{Folder, Run, ROOT};

#[test]
fn an_automatons_picture_has_what_it_should() {
    let folder = Folder::new("automaton_picture");
    folder.write(
        "a.ba",
        b"AH\x03\x02\x00AF\x01AT\x00\x00\x01AT\x00\x01\x01AT\x01\x00\x01AT\x00\x01\x02AE",
    );
    let run = folder.run(&["show", "a.ba", "--dot"]);
    assert!(run.status == 0 && run.err.is_empty(), "{run:?}");
    for part in [
        "start -> 0;",
        "0 [shape=circle];",
        "1 [shape=doublecircle];",
        "2 [shape=circle, label=\"2\\ndead\", style=dashed, ",
        "0 -> 1 [label=\"0,1\"];",
        "0 -> 2 [label=\"1\"];",
        "1 -> 1 [label=\"0\"];",
    ] {
        assert!(run.out.contains(part), "{part}: {run:?}");
    }
    assert_eq!(run.out.matches("->").count(), 4);
}

#[test]
fn a_walks_picture_has_counters_and_the_differing_path() {
    let folder = Folder::new("walk_picture");
    let run = folder.run(&["contain", "g.ba", "f.ba", "0", "--dot"]);
    assert!(run.status == 1 && run.err.is_empty(), "{run:?}");
    for part in [
        "0 [label=\"0: state 0\\ncounters 1 0 0 0\", shape=box];",
        "1 [label=\"1: state 0\\ncounters 0 0 1 0\", shape=box];",
        "2 [label=\"2: state 2\\ncounters 0 0 0 0\", shape=octagon, color=red, penwidth=2];",
        "1 -> 1 [label=\"0\"];",
        "0 -> 2 [label=\"0\", color=red, fontcolor=red, penwidth=2];",
    ] {
        assert!(run.out.contains(part), "{part}: {run:?}");
    }
}

#[test]
fn what_cannot_be_drawn_is_told_on_standard_error() {
    let folder = Folder::new("no_picture");
    folder.write("s", &[0; 2061]);
    for (words, number) in [
        (["show", "s", "--dot"].as_slice(), 13),
        (&["contain", "f.ba", "h.ba", "1", "--dot"], 7),
    ] {
        let run = folder.run(words);
        assert!(run.status == 2 && run.out.is_empty(), "{run:?}");
        assert!(run.err.starts_with(&format!("refused {number}: ")), "{run:?}");
    }
}

/// The vertices of every walk between the examples fit the edges computed for its picture, or there would be none. The final vertex of a
/// walk that differs, and nothing else, is red: an octagon, with a path to it unless it is the initial vertex.
#[test]
fn every_walk_between_the_examples_has_a_picture() {
    let folder = Folder::new("all_pictures");
    let items = fs::read_dir(format!("{ROOT}/examples"))
        .expect("examples")
        .map(|item| item.expect("a file").path());
    let files: Vec<PathBuf> = items
        .filter(|path| path.extension().is_some_and(|ending| ending == "ba"))
        .collect();
    let pairs = files
        .iter()
        .flat_map(|first| files.iter().map(move |second| (first, second)));
    let mut statuses = [0; 3];
    for (first, second) in pairs {
        for bound in ["0", "2"] {
            let words = [
                "contain".as_ref(),
                first.as_os_str(),
                second.as_os_str(),
                bound.as_ref(),
                "--dot".as_ref(),
            ];
            let run = folder.run(&words);
            check_picture(&run, &format!("{words:?}"));
            statuses[usize::try_from(run.status).expect("a status")] += 1;
        }
    }
    assert!(statuses.iter().all(|&count| count > 4), "{statuses:?}");
}

fn check_picture(run: &Run, words: &str) {
    let finals = run.out.matches("shape=octagon, color=red").count();
    let whole = run.out.starts_with("digraph walk {\n") && run.out.ends_with("}\n") && run.err.is_empty();
    match run.status {
        0 => assert!(whole && !run.out.contains("color=red"), "{words}: {run:?}"),
        1 => assert!(whole && finals == 1, "{words}: {run:?}"),
        2 => assert!(
            run.err.starts_with("refused 7: ") && run.out.is_empty(),
            "{words}: {run:?}"
        ),
        _ => panic!("{words}: {run:?}"),
    }
    if run.status == 1 && run.out.contains("\n    1 [label=") {
        let red = run
            .out
            .lines()
            .filter(|line| line.contains(" -> ") && line.contains("color=red"));
        assert!(red.count() >= 1, "{words}: {run:?}");
    }
}
