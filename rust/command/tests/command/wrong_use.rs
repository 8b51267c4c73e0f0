//! Wrong arguments, files that cannot be read, and answers that cannot be written: status 3.

use std::ffi::OsStr;
use std::fs::{self, OpenOptions};
use std::os::unix::ffi::OsStrExt;
use std::os::unix::fs::symlink;

use crate::folder::{Folder, Run};

/// Runs the words; the status is 3, nothing stands on standard output, and the message has this text.
fn fails(folder: &Folder, words: &str, text: &str) {
    let run = folder.run(&words.split(' ').filter(|word| !word.is_empty()).collect::<Vec<_>>());
    assert!(
        run.status == 3 && run.out.is_empty() && run.err.contains(text),
        "{words}: {run:?}"
    );
}

/// Wrong lines, and what is said of them.
const WRONG: [(&str, &str); 44] = [
    ("", "usage:"),
    (
        "close s",
        "there is no command close; the commands are listing, contain, open, offer, verdict, write, hanoi, show",
    ),
    (
        "contain f.ba g.ba",
        "contain takes 3 operands, not 2\nusage: edition contain FIRST SECOND BOUND",
    ),
    ("contain f.ba g.ba 1 1", "contain takes 3 operands, not 4"),
    ("contain f.ba g.ba one", "BOUND is a number such as 1, not 'one'"),
    ("contain f.ba g.ba +1", "BOUND is a number such as 1, not '+1'"),
    ("contain f.ba g.ba -1", "there is no option -1"),
    ("contain f.ba g.ba 1 --slot 3", "there is no option --slot"),
    ("contain f.ba g.ba 1 --slots", "--slots needs a number after it"),
    (
        "contain f.ba g.ba 1 --slots=x",
        "--slots is a number such as 1, not 'x'",
    ),
    ("show f.ba --slots 3", "show takes no --slots"),
    ("offer s f.ba 1 --dot", "offer draws no picture"),
    ("contain f.ba g.ba 1 --never", "contain prints no never claim"),
    (
        "show f.ba --dot --never",
        "--json, --dot, --never and --hoa ask for different forms",
    ),
    (
        "show f.ba --hoa --dot",
        "--json, --dot, --never and --hoa ask for different forms",
    ),
    ("show f.ba --never --hoa", "or --hoa with --json"),
    ("show f.ba --drop-extra", "show takes no --drop-extra"),
    ("contain f.ba g.ba 1 --hoa", "contain prints no Hanoi text"),
    (
        "contain - - 1",
        "standard input is read once: give one - only\nusage: edition contain",
    ),
    ("listing - - 1", "standard input is read once: give one - only"),
    (
        "open - f.ba",
        "STORE is the name of a file, and - is standard input; ./- is a file of that name",
    ),
    ("offer - f.ba 1", "STORE is the name of a file"),
    ("offer - - 1", "STORE is the name of a file"),
    ("verdict - 0 0", "STORE is the name of a file"),
    ("contain f.ba - -", "BOUND is a number such as 1, not '-'"),
    ("verdict s - 0", "STEM is letters in decimal with commas between them"),
    ("open s - -", "open takes 2 operands, not 3"),
    ("verdict s 0;1 0", "STEM is letters in decimal with commas between them"),
    ("verdict s 0 0,", "LOOP is letters in decimal with commas between them"),
    (
        "write",
        "write takes 1 or 2 operands, not 0\nusage: edition write FILE [OUT] [--json]",
    ),
    ("write f.ba s s", "write takes 1 or 2 operands, not 3"),
    (
        "write f.ba -",
        "OUT is the name of a file, and - is standard input; without OUT the file goes to standard output",
    ),
    ("write - -", "OUT is the name of a file"),
    ("write f.ba --slots 3", "write takes no --slots"),
    ("write f.ba s --dot", "write draws no picture"),
    ("write f.ba --never", "write prints no never claim"),
    ("write f.ba --drop-extra", "write takes no --drop-extra"),
    (
        "hanoi",
        "hanoi takes 1 or 2 operands, not 0\nusage: edition hanoi TEXT [OUT] [--drop-extra] [--json]",
    ),
    ("hanoi f.hoa s s", "hanoi takes 1 or 2 operands, not 3"),
    ("hanoi f.hoa -", "OUT is the name of a file, and - is standard input"),
    ("hanoi f.hoa --slots 3", "hanoi takes no --slots"),
    ("hanoi f.hoa s --dot", "hanoi draws no picture"),
    ("hanoi f.hoa s --hoa", "hanoi prints no Hanoi text"),
    ("hanoi f.hoa --drop", "there is no option --drop"),
];

#[test]
fn wrong_arguments_are_told() {
    let folder = Folder::new("wrong_arguments");
    for (words, text) in WRONG {
        fails(&folder, words, text);
    }
    assert_eq!(folder.names("s"), [""; 0]);
}

#[test]
fn missing_and_unreadable_files_are_told() {
    let folder = Folder::new("unreadable");
    // A folder stands for a file that cannot be read: root may read every file.
    fs::create_dir(folder.path("d")).expect("a folder");
    for name in ["none.ba", "d"] {
        let text = format!("cannot read {name}: ");
        for words in [
            "listing NAME g.ba 1",
            "listing f.ba NAME 1",
            "contain NAME g.ba 1",
            "contain f.ba NAME 1",
        ] {
            fails(&folder, &words.replace("NAME", name), &text);
        }
        for words in [
            "open s NAME",
            "offer s NAME 1",
            "show NAME",
            "write NAME",
            "write NAME s",
            "hanoi NAME",
            "hanoi NAME s",
            "hanoi NAME s --drop-extra",
        ] {
            fails(&folder, &words.replace("NAME", name), &text);
        }
    }
    fails(&folder, "offer none g.ba 1", "none");
    fails(&folder, "verdict none 0 0", "cannot read none: ");
    for words in ["open d f.ba", "offer d f.ba 1", "verdict d 0 0"] {
        fails(&folder, words, "cannot read d: ");
    }
    assert_eq!(folder.names("s"), [""; 0]);
}

/// Where there can be no lock, the message names the STORE or OUT as it was given, be it a link.
#[test]
fn a_folder_that_is_missing_and_a_lock_that_cannot_be_made_are_told() {
    let folder = Folder::new("no_lock_made");
    fs::create_dir(folder.path("s.lock")).expect("a folder");
    for (name, text) in [
        ("none/s", "cannot write none/s: No such file "),
        ("s", "cannot write s: cannot lock s.lock: "),
    ] {
        fails(&folder, &format!("open {name} f.ba"), text);
        fails(&folder, &format!("write f.ba {name}"), text);
        fails(&folder, &format!("hanoi f.hoa {name}"), text);
    }
    assert_eq!(folder.names("s"), ["s.lock"]);
    assert_eq!(folder.names("none"), [""; 0]);
    folder.answers("open t f.ba", 0, "opened: edition 0, 4 states");
    folder.write("out.ba", b"A");
    fs::remove_file(folder.path("t.lock")).expect("a lock");
    for (place, link) in [("t", "to-store"), ("out.ba", "to-out")] {
        fs::create_dir(folder.path(&format!("{place}.lock"))).expect("a folder");
        symlink(place, folder.path(link)).expect("a link");
    }
    fails(&folder, "offer to-store g.ba 1", "cannot write to-store: cannot lock ");
    fails(&folder, "write g.ba to-out", "cannot write to-out: cannot lock ");
    assert_eq!(folder.read("out.ba"), b"A");
}

#[test]
fn listing_needs_the_proved_program() {
    let folder = Folder::new("no_program");
    let words = ["listing", "f.ba", "g.ba", "1"];
    for (program, text) in [
        ("/none/listing", "cannot run /none/listing: "),
        ("echo", "the program listing printed ''"),
    ] {
        let run = Run::of(
            folder
                .command(&words)
                .env("EDITION_LISTING", program)
                .output()
                .expect("a run"),
        );
        assert!(
            run.status == 3 && run.out.is_empty() && run.err.contains(text),
            "{run:?}"
        );
    }
    // Without the variable the program is looked for beside this one.
    let mut command = folder.command(&words);
    let run = Run::of(command.env_remove("EDITION_LISTING").output().expect("a run"));
    assert!(
        run.status == 3 && run.err.starts_with("cannot run /") && run.err.contains("/listing: "),
        "{run:?}"
    );
}

#[test]
fn an_endless_file_is_not_read_to_its_end() {
    let folder = Folder::new("endless");
    fails(&folder, "show /dev/zero", "is longer than any automaton file");
    fails(&folder, "contain /dev/zero g.ba 1", "is longer than any automaton file");
    folder.write("most.ba", &vec![b'A'; 1 << 20]);
    folder.answers(
        "show most.ba",
        2,
        "refused 2: the file has an unknown or misplaced mark, or bytes after its end record",
    );
    folder.write("more.ba", &vec![b'A'; (1 << 20) + 1]);
    fails(
        &folder,
        "show more.ba",
        "more.ba is longer than any automaton file: over 1048576 bytes",
    );
    let run = folder.run(&["verdict", "/dev/zero", "", "0"]);
    assert!(run.status == 2 && run.out.starts_with("refused 9: "), "{run:?}");
}

#[test]
fn a_name_of_a_store_or_out_is_none_of_the_files_beside_it() {
    let folder = Folder::new("names");
    for words in [
        "open s.lock f.ba",
        "open s.unfinished f.ba",
        "write f.ba s.lock",
        "write f.ba s.unfinished",
        "hanoi f.hoa s.lock",
        "hanoi f.hoa s.unfinished",
    ] {
        fails(
            &folder,
            words,
            "names that end in .lock or .unfinished are for files beside a STORE or an OUT",
        );
    }
    symlink("nowhere", folder.path("link")).expect("a link");
    for words in ["open link f.ba", "write f.ba link"] {
        fails(&folder, words, "cannot read link: ");
    }
    assert_eq!(folder.names("s"), [""; 0]);
}

#[test]
fn an_empty_name_is_no_store_and_no_out() {
    let folder = Folder::new("empty_name");
    let names = folder.names("");
    for (words, operand) in [
        (["open", "", "f.ba"].as_slice(), "STORE"),
        (&["offer", "", "f.ba", "1"], "STORE"),
        (&["verdict", "", "0", "0"], "STORE"),
        (&["write", "f.ba", ""], "OUT"),
        (&["write", "none.ba", ""], "OUT"),
        (&["hanoi", "f.hoa", ""], "OUT"),
    ] {
        let run = folder.run(words);
        let text = format!("{operand} is the name of a file, and '' is none\nusage: ");
        assert!(
            run.status == 3 && run.out.is_empty() && run.err.starts_with(&text),
            "{run:?}"
        );
    }
    assert_eq!(folder.names(""), names);
}

#[test]
fn an_answer_that_cannot_be_written_is_told() {
    let folder = Folder::new("full");
    for form in ["--json", "--dot"] {
        let full = OpenOptions::new()
            .write(true)
            .open("/dev/full")
            .expect("the full device");
        let mut command = folder.command(&["contain", "f.ba", "g.ba", "1", form]);
        let run = Run::of(command.stdout(full).output().expect("a run"));
        assert!(
            run.status == 3 && run.err.contains("cannot write the answer"),
            "{run:?}"
        );
    }
}

#[test]
fn names_need_not_be_text_nor_differ_from_options() {
    let folder = Folder::new("odd_names");
    let odd = OsStr::from_bytes(b"a\xFF.ba");
    fs::copy(folder.path("f.ba"), folder.path("f.ba").with_file_name(odd)).expect("a copy");
    fs::copy(folder.path("f.ba"), folder.path("--json")).expect("a copy");
    assert_eq!(folder.run(&[OsStr::new("show"), odd]).status, 0);
    let shown = folder.run(&["show", "--", "--json"]);
    assert!(shown.out.starts_with("automaton: 4 states"), "{shown:?}");
    let unknown = folder.run(&[odd]);
    assert!(
        unknown.status == 3 && unknown.err.contains("there is no command"),
        "{unknown:?}"
    );
}

#[test]
fn help_names_every_command_and_has_examples() {
    let folder = Folder::new("help");
    let all = folder.run(&["--help"]);
    assert!(all.status == 0 && all.err.is_empty(), "{all:?}");
    for limit in [
        "1,048,576 bytes",
        "65,536",
        "4 the STORE or OUT is replaced or made, but ",
    ] {
        assert!(all.out.contains(limit), "{limit}: {all:?}");
    }
    for command in [
        "listing", "contain", "open", "offer", "verdict", "write", "hanoi", "show",
    ] {
        let one = folder.run(&[command, "--help"]);
        let example = format!("  ./edition {command} ");
        assert!(
            all.out.contains(&format!("  edition {command} ")) && all.out.contains(&example),
            "{command}"
        );
        assert!(
            one.status == 0 && one.out.contains(&example) && one.out.contains("exit status: 0 "),
            "{one:?}"
        );
    }
}
