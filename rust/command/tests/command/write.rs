//! `write`: a file's automaton in the fixed form, on standard output or in OUT, and what is left of OUT whatever happens.

use std::ffi::OsStr;
use std::fs::{self, File, OpenOptions, Permissions};
use std::os::unix::fs::{symlink, PermissionsExt};
use std::os::unix::net::UnixListener;
use std::path::{Path, PathBuf};
use std::process::Stdio;

use crate::folder::{Folder, Run, ROOT};

/// J of document 01, with its records in another order.
pub const MIXED: &[u8] = b"AH\x02\x01\x00AT\x01\x00\x01AT\x00\x00\x01AF\x01AE";

/// A folder with such a file, and one that is cut short.
fn with_mixed(test: &str) -> Folder {
    let folder = Folder::new(test);
    folder.write("mixed.ba", MIXED);
    folder.write("cut.ba", &MIXED[..9]);
    folder
}

#[test]
fn without_out_the_file_alone_stands_on_standard_output() {
    let folder = with_mixed("write_output");
    let j = folder.read("j.ba");
    for run in [
        folder.run(&["write", "mixed.ba"]),
        folder.run(&["write", "j.ba"]),
        folder.run_on("mixed.ba", &["write", "-"]),
    ] {
        assert_eq!(
            (run.status, run.out.as_bytes(), run.err.as_str()),
            (0, j.as_slice(), ""),
            "{run:?}"
        );
    }
    let run = folder.run(&["write", "cut.ba"]);
    assert!(run.status == 2 && run.out.is_empty(), "{run:?}");
    assert!(
        run.err.starts_with("refused 1: ") && run.err.contains("\nwhat to do: "),
        "{run:?}"
    );
    let run = folder.run_untold("write mixed.ba");
    assert!(
        run.status == 3 && run.err.starts_with("cannot write the answer: "),
        "{run:?}"
    );
}

#[test]
fn out_is_made_or_replaced_and_may_be_the_file_itself() {
    let folder = with_mixed("write_out");
    let j = folder.read("j.ba");
    folder.write("old.ba", &[b'A'; 100_000]);
    for words in [
        "write mixed.ba new.ba",
        "write mixed.ba old.ba",
        "write j.ba j.ba",
        "write mixed.ba mixed.ba",
    ] {
        folder.answers(words, 0, "written: 20 bytes");
    }
    for name in ["new.ba", "old.ba", "j.ba", "mixed.ba"] {
        assert_eq!(folder.read(name), j, "{name}");
        assert_eq!(folder.names(name), [name]);
    }
    folder.answers("write dead.ba dead.ba", 0, "written: 7 bytes");
    assert_eq!(folder.read("dead.ba"), b"AH\x01\x01\x00AE");
    let run = folder.run_untold("write f.ba new.ba");
    assert!(
        run.status == 4
            && run
                .err
                .starts_with("the new new.ba is in place (written: 50 bytes), but cannot write the answer: "),
        "{run:?}"
    );
    assert_eq!(folder.read("new.ba"), folder.read("f.ba"));
}

/// examples/README.md promises it of every file.
#[test]
fn every_example_is_written_as_it_is() {
    let folder = Folder::new("write_examples");
    let examples = Path::new(ROOT).join("examples");
    let items = [examples.clone(), examples.join("dead")].map(|place| fs::read_dir(place).expect("examples"));
    let paths = items.into_iter().flatten().map(|item| item.expect("an example").path());
    let files: Vec<PathBuf> = paths
        .filter(|path| path.extension() == Some(OsStr::new("ba")))
        .collect();
    assert!(files.len() >= 20, "{files:?}");
    assert!(files.contains(&examples.join("dead/until-sink.ba")), "{files:?}");
    for path in files {
        let run = folder.run(&[OsStr::new("write"), path.as_os_str()]);
        let bytes = fs::read(&path).expect("a file");
        assert_eq!((run.status, run.out.as_bytes()), (0, bytes.as_slice()), "{path:?}");
    }
}

#[test]
fn a_file_that_is_too_long_is_not_written() {
    let folder = Folder::new("write_long");
    folder.write("long.ba", &vec![b'A'; (1 << 20) + 1]);
    for words in [["write", "long.ba"].as_slice(), &["write", "long.ba", "new.ba"]] {
        let run = folder.run(words);
        let text = "long.ba is longer than any automaton file: over 1048576 bytes";
        assert!(
            run.status == 3 && run.out.is_empty() && run.err.contains(text),
            "{run:?}"
        );
    }
    assert_eq!(folder.names("new"), [""; 0]);
}

/// What stands as OUT.unfinished is removed as the rest of a killed run, so it cannot be FILE too.
#[test]
fn a_file_that_is_the_unfinished_one_of_out_stays() {
    let folder = with_mixed("write_own");
    folder.write("out.ba.unfinished", MIXED);
    symlink("out.ba.unfinished", folder.path("link.ba")).expect("a link");
    fs::hard_link(folder.path("out.ba.unfinished"), folder.path("hard.ba")).expect("a hard link");
    let refused = |run: Run, out: &str| {
        assert!(run.status == 3 && run.out.is_empty(), "{run:?}");
        assert!(
            run.err.starts_with(&format!("cannot write {out}: FILE is ")) && run.err.contains("out.ba.unfinished, "),
            "{run:?}"
        );
    };
    let check = |out: &str| {
        let names = folder.names("");
        for file in ["out.ba.unfinished", "./out.ba.unfinished", "link.ba", "hard.ba"] {
            refused(folder.run(&["write", file, out]), out);
        }
        refused(folder.run_on("out.ba.unfinished", &["write", "-", out]), out);
        assert_eq!(folder.names(""), names);
        assert_eq!(folder.read("out.ba.unfinished"), MIXED);
    };
    check("out.ba");
    folder.write("out.ba", b"A");
    symlink("out.ba", folder.path("out-link.ba")).expect("a link");
    check("out.ba");
    check("out-link.ba");
    assert_eq!(folder.read("out.ba"), b"A");
    folder.answers("write mixed.ba out.ba", 0, "written: 20 bytes");
    assert_eq!(folder.names("out.ba"), ["out.ba"]);
}

/// What is renamed to the file behind standard output would leave the answer in a file without a name; a pipe cannot be replaced at all.
#[test]
fn an_out_that_is_standard_output_is_refused() {
    let folder = with_mixed("write_stdout");
    folder.write("out.ba", b"A");
    symlink("out.ba", folder.path("link.ba")).expect("a link");
    fs::hard_link(folder.path("out.ba"), folder.path("hard.ba")).expect("a hard link");
    let names = folder.names("");
    let refused = |run: Run, out: &str| {
        let text = format!("{out} is standard output itself: leave OUT out, ");
        assert!(
            run.status == 3 && run.out.is_empty() && run.err.starts_with(&text),
            "{run:?}"
        );
        assert_eq!(folder.read("out.ba"), b"A");
        assert_eq!(folder.names(""), names);
    };
    // Here standard output is a pipe.
    refused(folder.run(&["write", "mixed.ba", "/dev/stdout"]), "/dev/stdout");
    for out in ["out.ba", "link.ba", "hard.ba", "/dev/stdout"] {
        let file = OpenOptions::new().append(true).open(folder.path("out.ba"));
        let mut command = folder.command(&["write", "mixed.ba", out]);
        refused(
            Run::of(command.stdout(file.expect("OUT")).output().expect("a run")),
            out,
        );
    }
}

#[test]
fn a_standard_output_elsewhere_does_not_matter_to_out() {
    let folder = with_mixed("write_elsewhere");
    let answer = File::create(folder.path("answer")).expect("a file");
    for (name, output) in [("one.ba", Stdio::null()), ("two.ba", answer.into())] {
        folder.write(name, b"A");
        let mut command = folder.command(&["write", "mixed.ba", name]);
        let run = Run::of(command.stdout(output).output().expect("a run"));
        assert!(run.status == 0 && run.err.is_empty(), "{run:?}");
        assert_eq!(folder.read(name), folder.read("j.ba"));
    }
    assert_eq!(folder.read("answer"), b"written: 20 bytes\n");
}

#[test]
fn a_refused_write_leaves_out_as_it_was() {
    let folder = with_mixed("write_refused");
    for words in ["write cut.ba cut.ba", "write cut.ba g.ba", "write cut.ba new.ba"] {
        folder.answers(
            words,
            2,
            "refused 1: the file ends inside a record or has no end record",
        );
    }
    assert_eq!(folder.read("cut.ba"), &MIXED[..9]);
    assert_eq!(folder.read("g.ba").len(), 53);
    assert_eq!(folder.names("cut.ba"), ["cut.ba"]);
    assert_eq!(folder.names("g.ba"), ["g.ba"]);
    assert_eq!(folder.names("new"), [""; 0]);
}

/// A STORE changes by open and offer alone, and what is renamed over a socket, a device or a folder would take its place.
#[test]
fn a_store_and_what_is_no_plain_file_are_no_out() {
    let folder = Folder::new("write_no_out");
    folder.answers("open s f.ba", 0, "opened: edition 0, 4 states");
    folder.write("t", &[0; 2061]);
    folder.write("short", &[0; 3]);
    folder.write("other", &[b'B'; 2061]);
    fs::create_dir(folder.path("d")).expect("a folder");
    let _socket = UnixListener::bind(folder.path("socket")).expect("a socket");
    let files = ["s", "t", "short", "other"];
    let stores = files.map(|name| folder.read(name));
    let names = folder.names("");
    let store = "it begins as a STORE does or is as long as one, and open and offer alone replace a STORE";
    let special = "it is no plain file";
    let refused = files.map(|name| (name, store)).into_iter();
    for (name, why) in refused.chain([("d", special), ("socket", special)]) {
        let run = folder.run(&["write", "g.ba", name]);
        assert!(run.status == 3 && run.out.is_empty(), "{run:?}");
        assert_eq!(run.err, format!("cannot replace {name}: {why}\n"));
    }
    assert_eq!(files.map(|name| folder.read(name)), stores);
    assert_eq!(folder.names(""), names);
}

#[test]
fn a_link_to_out_stays_a_link_and_permissions_stay() {
    let folder = with_mixed("write_link");
    folder.write("out.ba", b"A");
    symlink("out.ba", folder.path("link.ba")).expect("a link");
    // What may not be written may be replaced.
    for (mode, file) in [(0o640, "f.ba"), (0o444, "g.ba")] {
        fs::set_permissions(folder.path("out.ba"), Permissions::from_mode(mode)).expect("permissions");
        assert_eq!(folder.run(&["write", file, "link.ba"]).status, 0);
        assert_eq!(folder.read("out.ba"), folder.read(file));
        assert!(folder.path("link.ba").is_symlink());
        let kept = fs::metadata(folder.path("out.ba")).expect("OUT").permissions();
        assert_eq!(kept.mode() & 0o777, mode);
    }
    assert_eq!(
        (folder.names("link"), folder.names("out")),
        (vec!["link.ba".into()], vec!["out.ba".into()])
    );
}

/// Runs the words, which write J to a.ba, stopped at each of twenty calls in turn, of which the last are past their end; before each run a.ba
/// has J in another form. Gives the runs, and whether a.ba has J's fixed form after them.
fn stopped(test: &str, words: &[&str], how: &str) -> Vec<(Run, bool)> {
    let folder = Folder::new(test);
    let library = folder.stopper();
    let j = folder.read("j.ba");
    let stop = |call| {
        folder.write("a.ba", MIXED);
        let run = Run::of(folder.stopped(words, &library, call, how).output().expect("a run"));
        let left = folder.read("a.ba");
        assert!(left == MIXED || left == j, "call {call} left a part of a file: {run:?}");
        let again = folder.run(words);
        assert_eq!(again.out, "written: 20 bytes\n", "after call {call}: {again:?}");
        assert_eq!(folder.read("a.ba"), j, "after call {call}");
        assert_eq!(folder.names("a.ba"), ["a.ba"], "after call {call}");
        (run, left == j)
    };
    (1..=20).map(stop).collect()
}

/// A kill at any call leaves the old a.ba or the new one.
pub fn survives_kills(test: &str, words: &[&str]) {
    let runs = stopped(test, words, "kill");
    let renamed = runs.iter().position(|&(_, new)| new).expect("a kill after the rename");
    let ended = runs
        .iter()
        .position(|(run, _)| run.status == 0)
        .expect("a run to the end");
    assert!(6 < renamed && renamed < ended, "{runs:?}");
    for (place, (run, new)) in runs.iter().enumerate() {
        let wanted = (if place < ended { -1 } else { 0 }, place >= renamed);
        assert_eq!((run.status, *new), wanted, "call {}: {run:?}", place + 1);
    }
}

/// A fault of the disk is told and leaves the old a.ba, or it is told that the new one is in place.
pub fn survives_faults(test: &str, words: &[&str]) {
    let runs = stopped(test, words, "fail");
    for (run, new) in &runs {
        let told = run.err.contains("the new a.ba is in place");
        match run.status {
            0 => assert!(
                *new && run.err.is_empty() && run.out == "written: 20 bytes\n",
                "{run:?}"
            ),
            3 => assert!(!new && !told && run.out.is_empty(), "{run:?}"),
            _ => assert!(*new && told && run.status == 4, "{run:?}"),
        }
    }
    let (full, unsynced) = ("No space left on device", "Input/output error");
    for (text, fault) in [
        ("a.ba.unfinished", full),
        ("a.ba.unfinished", unsynced),
        ("is in place, but a power cut may undo that: ", unsynced),
        ("is in place (written: 20 bytes), but cannot write the answer: ", full),
    ] {
        let told = |run: &Run| run.err.contains(text) && run.err.contains(fault);
        assert!(runs.iter().any(|(run, _)| told(run)), "{text}: {fault}: {runs:?}");
    }
}

/// Runs the words, which write J to new.ba, with a fault or a kill at each of twenty calls in turn, of which the last are past the end: that
/// leaves no new.ba or the whole of it.
pub fn survives_stops_without_out(test: &str, words: &[&str]) {
    let folder = with_mixed(test);
    let library = folder.stopper();
    let (out, j) = (folder.path("new.ba"), folder.read("j.ba"));
    for how in ["fail", "kill"] {
        let mut made = 0;
        for call in 1..=20 {
            let run = Run::of(folder.stopped(words, &library, call, how).output().expect("a run"));
            let whole = out.exists();
            assert!(
                !whole || folder.read("new.ba") == j,
                "call {call} left a part of a file: {run:?}"
            );
            match run.status {
                0 | 4 => assert!(whole, "call {call}: {run:?}"),
                3 => assert_eq!(folder.names("new"), [""; 0], "call {call}: {run:?}"),
                _ => assert!(how == "kill", "call {call}: {run:?}"),
            }
            made += usize::from(whole);
            folder.answers(&words.join(" "), 0, "written: 20 bytes");
            assert_eq!(folder.names("new"), ["new.ba"], "after call {call}");
            fs::remove_file(&out).expect("OUT");
        }
        assert!((2..20).contains(&made), "{how}: {made} made");
    }
}

#[test]
fn a_kill_at_any_call_leaves_the_old_file_or_the_new_one() {
    survives_kills("write_kill", &["write", "a.ba", "a.ba"]);
}

/// A lock that cannot be removed does no harm and is not told; the next run removes it.
#[test]
fn a_fault_of_the_disk_is_told_and_leaves_the_old_file_or_says_that_it_is_replaced() {
    survives_faults("write_fault", &["write", "a.ba", "a.ba"]);
}

#[test]
fn where_there_was_no_out_a_stop_leaves_none_or_the_whole_new_one() {
    survives_stops_without_out("write_stop_new", &["write", "mixed.ba", "new.ba"]);
}

#[test]
fn of_many_writes_at_once_each_leaves_a_whole_file() {
    let folder = with_mixed("write_many");
    let whole = ["f.ba", "g.ba", "j.ba"].map(|name| folder.read(name));
    folder.write("out.ba", &whole[0]);
    for _ in 0..20 {
        let files = ["f.ba", "g.ba", "mixed.ba", "f.ba", "g.ba", "mixed.ba"];
        let runs = files.map(|file| folder.start(&["write", file, "out.ba"]));
        for run in runs {
            assert!(whole.contains(&folder.read("out.ba")));
            let run = Run::of(run.wait_with_output().expect("a run"));
            assert!(run.status == 0 && run.out.starts_with("written: "), "{run:?}");
        }
        assert!(whole.contains(&folder.read("out.ba")));
        assert_eq!(folder.names("out"), ["out.ba"]);
    }
}

#[test]
fn someones_own_file_where_the_lock_would_be_stays() {
    let folder = with_mixed("write_lock");
    folder.write("out.lock", b"not empty");
    let run = folder.run(&["write", "mixed.ba", "out"]);
    assert_eq!(run.out, "written: 20 bytes\n", "{run:?}");
    assert_eq!(folder.read("out.lock"), b"not empty");
}

#[test]
fn show_says_whether_a_file_is_in_the_fixed_form() {
    let folder = with_mixed("write_show");
    for (name, line) in [("mixed.ba", "fixed form: no"), ("j.ba", "fixed form: yes")] {
        let shown = folder.run(&["show", name]);
        assert_eq!(shown.out.lines().nth(4), Some(line), "{shown:?}");
    }
    folder.answers("open s mixed.ba", 0, "opened: edition 0, 2 states");
    let shown = folder.run(&["show", "s"]);
    assert!(shown.status == 0 && !shown.out.contains("fixed form"), "{shown:?}");
}
