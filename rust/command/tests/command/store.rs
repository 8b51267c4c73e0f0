//! What a STORE is after kills, faults of the disk, damage and several offers at once.

use std::fs::{self, File, OpenOptions, Permissions};
use std::io;
use std::os::unix::fs::{symlink, PermissionsExt};
use std::process::Child;
use std::thread::sleep;
use std::time::Duration;

use crate::folder::{Folder, Run};

/// An accepting state with a loop, of so many states: those behind it are not reached. Each is an edition of every larger one.
fn padded(states: u8) -> Vec<u8> {
    [b"AH".as_slice(), &[states], b"\x01\x00AF\x00AT\x00\x00\x00AE"].concat()
}

/// A folder with a STORE that holds F.
fn with_store(test: &str) -> Folder {
    let folder = Folder::new(test);
    folder.answers("open s f.ba", 0, "opened: edition 0, 4 states");
    folder
}

fn finished(run: Child) -> Run {
    Run::of(run.wait_with_output().expect("a run"))
}

/// Offers G to a STORE that holds F, stopped at each of its calls in turn until one is stopped at none. Gives the runs that
/// were stopped, and whether the STORE has G after them. The statuses are those of a run that is stopped before and after it has.
fn stopped(test: &str, how: &str, statuses: [i32; 2]) -> Vec<(Run, bool)> {
    let folder = with_store(test);
    let library = folder.stopper();
    let old = folder.read("s");
    folder.answers("offer s g.ba 1", 0, "taken: edition 1, states 3 of 4, walks 5 8");
    let new = folder.read("s");
    let mut runs = Vec::new();
    loop {
        let call = runs.len() + 1;
        folder.write("s", &old);
        let mut command = folder.stopped(&["offer", "s", "g.ba", "1"], &library, call, how);
        let run = Run::of(command.output().expect("a run"));
        let left = folder.read("s");
        assert!(
            left == old || left == new,
            "call {call} left a STORE that nobody wrote: {run:?}"
        );
        if run.status == 0 {
            assert!(left == new, "call {call}: {run:?}");
            return runs;
        }
        assert_eq!(run.status, statuses[usize::from(left == new)], "call {call}: {run:?}");
        let again = folder.run(&["offer", "s", "g.ba", "1"]);
        assert_eq!(again.status, if left == new { 2 } else { 0 }, "call {call}: {again:?}");
        assert!(
            folder.read("s") == new && folder.names("s.") == ["s.lock"],
            "call {call}"
        );
        runs.push((run, left == new));
    }
}

/// The calls open the offer, the lock, the STORE and the unfinished file, remove what a run before left, set permissions, write,
/// sync and rename, then sync the folder and print.
#[test]
fn a_kill_at_any_call_leaves_the_old_entry_or_the_new_one() {
    let runs = stopped("kill", "kill", [-1, -1]);
    let renamed = runs.iter().position(|&(_, new)| new).expect("a kill after the rename");
    assert!(renamed >= 6 && runs[renamed..].iter().all(|&(_, new)| new), "{runs:?}");
}

#[test]
fn a_fault_of_the_disk_is_told_and_leaves_the_old_entry_or_says_that_it_is_replaced() {
    let runs = stopped("fault", "fail", [3, 4]);
    for (run, new) in &runs {
        let unsynced = run
            .err
            .contains("the new s is in place, but a power cut may undo that: ");
        let untold = run.err.contains(
            "the new s is in place (taken: edition 1, states 3 of 4, walks 5 8), but cannot write the answer: ",
        );
        assert_eq!(unsynced || untold, *new, "{run:?}");
    }
    let (full, unsynced) = ("No space left on device", "Input/output error");
    for (text, fault) in [
        ("s.unfinished", full),
        ("s.unfinished", unsynced),
        ("is in place, but", unsynced),
        ("is in place (taken: ", full),
    ] {
        assert!(
            runs.iter()
                .any(|(run, _)| run.err.contains(text) && run.err.contains(fault)),
            "{text}: {fault}: {runs:?}"
        );
    }
}

#[test]
fn a_replaced_store_is_told_where_the_answer_cannot_be_written() {
    let folder = Folder::new("untold");
    for (words, done) in [
        (
            "open s f.ba",
            "the new s is in place (opened: edition 0, 4 states), but cannot write",
        ),
        (
            "offer s g.ba 1 --json",
            "the new s is in place (taken: edition 1, states 3 of 4, walks 5 8), but cannot write",
        ),
    ] {
        let run = folder.run_untold(words);
        assert!(run.status == 4 && run.err.starts_with(done), "{words}: {run:?}");
    }
    folder.answers("show s", 0, "entry: edition 1, first edition of 4 states");
    for words in ["offer s g.ba 1", "open s f.ba", "verdict s 0 0", "show s"] {
        let run = folder.run_untold(words);
        assert!(
            run.status == 3 && run.err.starts_with("cannot write the answer: "),
            "{words}: {run:?}"
        );
    }
}

/// The fault comes at one call after the other, and past the last call at none; whatever it hits, no answer can be written.
#[test]
fn with_a_fault_besides_a_replaced_store_is_told_too() {
    let folder = with_store("untold_fault");
    let library = folder.stopper();
    let old = folder.read("s");
    let (mut replaced, mut silent) = (0, 0);
    for call in 1..=20 {
        folder.write("s", &old);
        let full = OpenOptions::new()
            .write(true)
            .open("/dev/full")
            .expect("the full device");
        let mut command = folder.stopped(&["offer", "s", "g.ba", "1", "--json"], &library, call, "fail");
        let run = Run::of(command.stdout(full).output().expect("a run"));
        let new = folder.read("s") != old;
        assert_eq!(run.status, if new { 4 } else { 3 }, "call {call}: {run:?}");
        // The fault may hit the message itself: then the status alone says it.
        assert!(
            run.err.is_empty() || run.err.contains("the new s is in place") == new,
            "call {call}: {run:?}"
        );
        silent += usize::from(run.err.is_empty());
        replaced += usize::from(new);
    }
    assert!(
        (2..20).contains(&replaced) && silent == 1,
        "{replaced} replaced, {silent} silent"
    );
}

#[test]
fn a_closed_pipe_is_told_as_a_full_disk_is() {
    let folder = with_store("closed_pipe");
    let (reader, writer) = io::pipe().expect("a pipe");
    drop(reader);
    let mut command = folder.command(&["offer", "s", "g.ba", "1"]);
    let run = Run::of(command.stdout(writer).output().expect("a run"));
    assert!(run.status == 4 && run.err.contains("Broken pipe"), "{run:?}");
    folder.answers("show s", 0, "entry: edition 1, first edition of 4 states");
}

#[test]
fn no_lock_stays_beside_what_is_no_store() {
    let folder = Folder::new("no_lock");
    fs::create_dir(folder.path("s.folder")).expect("a folder");
    folder.write("s.damaged", b"\x01");
    for words in [
        "open s.folder f.ba",
        "offer s.folder g.ba 1",
        "open s.damaged f.ba",
        "offer s.damaged g.ba 1",
        "offer s g.ba 1",
        "open s dead.ba",
        "open s none.ba",
    ] {
        let run = folder.run(&words.split(' ').collect::<Vec<_>>());
        assert!(run.status >= 2, "{words}: {run:?}");
        assert_eq!(folder.names("s"), ["s.damaged", "s.folder"], "{words}");
    }
}

/// A fault at each call of an open leaves the whole STORE with its lock, or nothing at all.
#[test]
fn an_open_that_fails_leaves_nothing() {
    let folder = Folder::new("failed_open");
    let library = folder.stopper();
    let mut failed = 0;
    loop {
        let mut command = folder.stopped(&["open", "s", "f.ba"], &library, failed + 1, "fail");
        let run = Run::of(command.output().expect("a run"));
        let left = folder.names("s");
        match run.status {
            0 => break assert!(failed > 5 && left == ["s", "s.lock", "stop.so"], "{left:?}"),
            4 => assert_eq!(left, ["s", "s.lock", "stop.so"], "{run:?}"),
            _ => assert!(run.status == 3 && left == ["stop.so"], "{left:?} after {run:?}"),
        }
        let _ = fs::remove_file(folder.path("s"));
        let _ = fs::remove_file(folder.path("s.lock"));
        failed += 1;
    }
}

/// Opens that are refused remove their lock while others wait for it; those that come in time still find one entry.
#[test]
fn locks_that_are_removed_let_no_two_opens_through() {
    let folder = Folder::new("removed_locks");
    for _ in 0..50 {
        let _ = fs::remove_file(folder.path("s"));
        let _ = fs::remove_file(folder.path("s.lock"));
        let files = ["dead.ba", "f.ba", "dead.ba", "g.ba", "dead.ba", "h.ba"];
        let runs = files.map(|file| folder.start(&["open", "s", file])).map(finished);
        let opened = runs.iter().filter(|run| run.out.starts_with("opened: ")).count();
        let refused = runs.iter().filter(|run| run.status == 2).count();
        assert!(opened == 1 && refused == 5, "{runs:?}");
        assert_eq!(folder.names("s"), ["s", "s.lock"]);
    }
}

/// A lock file that this test holds.
fn held_lock(folder: &Folder) -> File {
    let lock = File::create(folder.path("s.lock")).expect("a lock file");
    lock.lock().expect("the lock");
    lock
}

/// A run waits for a lock that is removed, as by an open that is refused, while another has made the next one: it waits for that too.
#[test]
fn a_lock_that_is_removed_is_no_leave_to_go_on() {
    let folder = Folder::new("removed_lock");
    let pause = || sleep(Duration::from_millis(300));
    let first = held_lock(&folder);
    let run = folder.start(&["open", "s", "f.ba"]);
    pause();
    fs::remove_file(folder.path("s.lock")).expect("the lock file");
    let second = held_lock(&folder);
    drop(first);
    pause();
    assert!(!folder.path("s").exists(), "a run goes on under a lock that is removed");
    drop(second);
    assert_eq!(finished(run).out, "opened: edition 0, 4 states\n");
}

#[test]
fn what_a_killed_run_left_is_written_again() {
    let folder = with_store("leftover");
    folder.write("s.unfinished", &[7; 5000]);
    folder.answers("verdict s  0,1", 0, "yes: the held automaton accepts the word");
    folder.answers("offer s g.ba 1", 0, "taken: edition 1, states 3 of 4, walks 5 8");
    folder.answers("show s", 0, "entry: edition 1, first edition of 4 states");
    assert_eq!(folder.names("s"), ["s", "s.lock"]);
}

/// The answer would stand in a file that has no name any more.
#[test]
fn a_store_that_is_standard_output_is_refused() {
    let folder = with_store("store_stdout");
    symlink("s", folder.path("link")).expect("a link");
    let (store, names) = (folder.read("s"), folder.names(""));
    for words in [
        ["offer", "s", "g.ba", "1"].as_slice(),
        &["offer", "link", "g.ba", "1"],
        &["open", "s", "f.ba"],
    ] {
        let output = OpenOptions::new().append(true).open(folder.path("s")).expect("a STORE");
        let run = Run::of(folder.command(words).stdout(output).output().expect("a run"));
        let text = format!("{} is standard output itself, ", words[1]);
        assert!(run.status == 3 && run.err.starts_with(&text), "{run:?}");
        assert_eq!((folder.read("s"), folder.names("")), (store.clone(), names.clone()));
    }
}

/// What stands as STORE.unfinished is removed as the rest of a killed run, so it cannot be FILE too.
#[test]
fn a_file_that_is_the_unfinished_one_of_the_store_stays() {
    let folder = Folder::new("own_unfinished");
    let g = folder.read("g.ba");
    folder.write("s.unfinished", &g);
    symlink("s.unfinished", folder.path("link.ba")).expect("a link");
    fs::hard_link(folder.path("s.unfinished"), folder.path("hard.ba")).expect("a hard link");
    let check = |words: &str| {
        let names = folder.names("");
        for file in ["s.unfinished", "./s.unfinished", "link.ba", "hard.ba", "-"] {
            let line = words.replace("FILE", file);
            let run = folder.run_on("s.unfinished", &line.split(' ').collect::<Vec<_>>());
            assert!(run.status == 3 && run.out.is_empty(), "{line}: {run:?}");
            assert!(
                run.err.starts_with("cannot write s: FILE is ") && run.err.contains("s.unfinished, "),
                "{line}: {run:?}"
            );
        }
        assert_eq!((folder.names(""), folder.read("s.unfinished")), (names, g.clone()));
    };
    check("open s FILE");
    fs::rename(folder.path("s.unfinished"), folder.path("kept.ba")).expect("another name");
    folder.answers("open s f.ba", 0, "opened: edition 0, 4 states");
    fs::rename(folder.path("kept.ba"), folder.path("s.unfinished")).expect("the old name");
    let store = folder.read("s");
    check("open s FILE");
    check("offer s FILE 1");
    assert_eq!(folder.read("s"), store);
}

#[test]
fn two_offers_at_once_lose_nothing() {
    let folder = Folder::new("two_offers");
    for states in 1..=3 {
        folder.write(&format!("{states}.ba"), &padded(states));
    }
    for round in 0..100 {
        let _ = fs::remove_file(folder.path("s"));
        folder.answers("open s 3.ba", 0, "opened: edition 0, 3 states");
        let order = if round % 2 == 0 {
            ["2.ba", "1.ba"]
        } else {
            ["1.ba", "2.ba"]
        };
        let runs = order.map(|file| folder.start(&["offer", "s", file, "0"]));
        let mut runs = runs.map(|run| finished(run).out);
        if round % 2 == 1 {
            runs.reverse();
        }
        let shown = folder.run(&["show", "s"]).out;
        let two_first = runs[0].starts_with("taken: edition 1, states 2 of 3")
            && runs[1].starts_with("taken: edition 2, states 1 of 3");
        let one_first = runs[0].starts_with("refused 14: ") && runs[1].starts_with("taken: edition 1, states 1 of 3");
        assert!(two_first || one_first, "round {round}: {runs:?}");
        let edition = if two_first { 2 } else { 1 };
        assert!(
            shown.starts_with(&format!(
                "entry: edition {edition}, first edition of 3 states\nautomaton: 1 states"
            )),
            "{shown}"
        );
    }
}

#[test]
fn many_offers_at_once_are_all_counted_and_readers_see_whole_entries() {
    let folder = Folder::new("many_offers");
    for states in 1..=32 {
        folder.write(&format!("{states}.ba"), &padded(states));
    }
    for _ in 0..5 {
        let _ = fs::remove_file(folder.path("s"));
        folder.answers("open s 32.ba", 0, "opened: edition 0, 32 states");
        let files: Vec<String> = (1..32).rev().map(|states| format!("{states}.ba")).collect();
        let offers: Vec<Child> = files
            .iter()
            .map(|file| folder.start(&["offer", "s", file, "0"]))
            .collect();
        let readers: Vec<Child> = (0..20).map(|_| folder.start(&["show", "s"])).collect();
        for reader in readers {
            let shown = finished(reader);
            assert!(
                shown.status == 0 && shown.out.starts_with("entry: edition "),
                "{shown:?}"
            );
        }
        let runs: Vec<Run> = offers.into_iter().map(finished).collect();
        let taken = runs.iter().filter(|run| run.out.starts_with("taken: ")).count();
        let turned_down = runs.iter().filter(|run| run.out.starts_with("refused 14: ")).count();
        assert!(taken >= 1 && taken + turned_down == 31, "{runs:?}");
        folder.answers(
            "show s",
            0,
            &format!("entry: edition {taken}, first edition of 32 states"),
        );
    }
}

#[test]
fn of_two_opens_at_once_one_opens() {
    let folder = Folder::new("two_opens");
    for _ in 0..50 {
        let _ = fs::remove_file(folder.path("s"));
        let runs = ["f.ba", "g.ba"]
            .map(|file| folder.start(&["open", "s", file]))
            .map(finished);
        let mut statuses = runs.each_ref().map(|run| run.status);
        statuses.sort();
        assert_eq!(statuses, [0, 2], "{runs:?}");
        assert!(runs.iter().any(|run| run.out.starts_with("refused 12: ")), "{runs:?}");
    }
}

#[test]
fn a_damaged_store_is_refused_with_9_or_answered_as_the_bytes_say() {
    let folder = with_store("damage");
    let sound = folder.read("s");
    let mut refused = 0;
    for place in 0..sound.len() {
        let mut bytes = sound.clone();
        bytes[place] ^= 1;
        folder.write("s", &bytes);
        let run = folder.run(&["verdict", "s", "", "0"]);
        let wanted = match second::entry_verdict(&bytes, &[], &[0]) {
            0 => (1, "no: "),
            1 => (0, "yes: "),
            113 => (2, "refused 13: "),
            _ => (2, "refused 9: "),
        };
        assert!(
            run.status == wanted.0 && run.out.starts_with(wanted.1),
            "byte {place}: {run:?}"
        );
        refused += usize::from(run.out.starts_with("refused 9: "));
    }
    assert!((1..sound.len()).contains(&refused), "{refused}");
}

#[test]
fn no_command_changes_a_damaged_store() {
    let folder = with_store("damage_stays");
    let sound = folder.read("s");
    let longer = [sound.as_slice(), &[0]].concat();
    let mut forged = sound.clone();
    forged[1] = 33;
    let mut tagged = sound.clone();
    tagged[0] = 2;
    for bytes in [&[], &sound[..2060], &longer, &forged, &tagged] {
        folder.write("s", bytes);
        for words in ["open s f.ba", "offer s g.ba 1", "verdict s 0 0"] {
            let run = folder.run(&words.split(' ').collect::<Vec<_>>());
            assert!(
                run.status == 2 && run.out.starts_with("refused 9: "),
                "{words}: {run:?}"
            );
        }
        let shown = folder.run(&["show", "s"]);
        assert!(shown.status == 2, "{shown:?}");
        assert_eq!(folder.read("s"), bytes);
    }
}

#[test]
fn a_link_stays_a_link_and_permissions_stay() {
    let folder = with_store("link");
    fs::set_permissions(folder.path("s"), Permissions::from_mode(0o640)).expect("permissions");
    symlink("s", folder.path("link")).expect("a link");
    folder.answers("offer link g.ba 1", 0, "taken: edition 1, states 3 of 4, walks 5 8");
    folder.answers("show s", 0, "entry: edition 1, first edition of 4 states");
    assert!(folder.path("link").is_symlink());
    assert_eq!(
        fs::metadata(folder.path("s")).expect("the STORE").permissions().mode() & 0o777,
        0o640
    );
    assert_eq!(folder.names("link"), ["link"]);
}
