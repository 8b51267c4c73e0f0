//! The commands' names, operands and help texts.

use std::ops::RangeInclusive;

use crate::answer::{Answer, Failure};
use crate::arguments::{Arguments, Form};
use crate::commands;

/// The operand that names the file of an entry.
pub const STORE: &str = "STORE";

/// The operand, which may be left out, that names the file to write.
pub const OUT: &str = "[OUT]";

/// The operands that name no file.
pub const NO_FILES: [&str; 3] = ["BOUND", "STEM", "LOOP"];

/// An option that some commands take; --json and --help go with all.
#[derive(Clone, Copy, PartialEq, Eq)]
pub enum Choice {
    Slots,
    DropExtra,
    Dot,
    Never,
    Hoa,
}

impl Choice {
    pub const ALL: [Choice; 5] = [
        Choice::Slots,
        Choice::DropExtra,
        Choice::Dot,
        Choice::Never,
        Choice::Hoa,
    ];

    /// Whether the line has the option.
    pub fn is_given(self, arguments: &Arguments) -> bool {
        match self {
            Choice::Slots => arguments.slots.is_some(),
            Choice::DropExtra => arguments.drop_extra,
            Choice::Dot => arguments.form() == Form::Dot,
            Choice::Never => arguments.form() == Form::Never,
            Choice::Hoa => arguments.hoa,
        }
    }

    /// What is said of a command that does not take it.
    pub fn untaken(self) -> &'static str {
        match self {
            Choice::Slots => "takes no --slots",
            Choice::DropExtra => "takes no --drop-extra",
            Choice::Dot => "draws no picture",
            Choice::Never => "prints no never claim",
            Choice::Hoa => "prints no Hanoi text",
        }
    }
}

/// A command of the program.
pub struct Command {
    pub name: &'static str,
    pub operands: &'static [&'static str],
    pub takes: &'static [Choice],
    about: &'static str,
    examples: &'static str,
    pub run: fn(&Arguments) -> Result<Answer, Failure>,
}

impl Command {
    /// How many operands the command takes: those in brackets may be left out.
    pub fn counts(&self) -> RangeInclusive<usize> {
        let optional = self.operands.iter().filter(|name| name.starts_with('['));
        self.operands.len() - optional.count()..=self.operands.len()
    }

    /// The command with its operands and options.
    pub fn usage(&self) -> String {
        let has = |choice, text| if self.takes.contains(&choice) { text } else { "" };
        format!(
            "edition {} {}{}{} [--json{}{}{}]",
            self.name,
            self.operands.join(" "),
            has(Choice::Slots, " [--slots N]"),
            has(Choice::DropExtra, " [--drop-extra]"),
            has(Choice::Dot, " | --dot"),
            has(Choice::Never, " | --never"),
            has(Choice::Hoa, " | --hoa"),
        )
    }

    /// The command's own help.
    pub fn help(&self) -> String {
        format!(
            "usage: {}\n\n{}\n\n{STATUS}\n\nexamples:\n{}",
            self.usage(),
            self.about,
            self.examples
        )
    }
}

/// The help on everything.
pub fn all() -> String {
    let usages: Vec<String> = COMMANDS
        .iter()
        .map(|command| format!("  {}", command.usage()))
        .collect();
    let examples: Vec<&str> = COMMANDS.iter().map(|command| command.examples).collect();
    format!(
        "Asks the proved Büchi edition checker.\n\nusage:\n{}\n  edition --version\n\n{OPERANDS}\n\n{STATUS}\n\n\
         examples:\n{}\n\nedition COMMAND --help says more of a command.",
        usages.join("\n"),
        examples.join("\n")
    )
}

const OPERANDS: &str = "\
FIRST, SECOND, OFFER and FILE are automaton files, of at most 1,048,576 bytes (the longest well-formed one has 82,023; with
listing at most 65,536), or Hanoi texts such as TEXT, which are told by their first letter, H, and read as hanoi reads them;
- is standard input, once. A STORE is a file that holds one entry, OUT an automaton file to be written. BOUND is a number from
0 to 14. STEM and LOOP are letters with commas between them, such as 0,1,1; '' is the empty stem. --json gives the answer as a
JSON object, wrong use included; --dot gives a picture in Graphviz's language, --never a never claim in SPIN's, --hoa a Hanoi
text; words after -- are no options.";

const STATUS: &str = "\
exit status: 0 contained, taken, opened, yes, written, shown; 1 differs, forward, back, no; 2 refused, with the number and what to
do; 3 wrong use, or a file or an answer that cannot be read or written; 4 the STORE or OUT is replaced or made, but the answer
cannot be written, or a power cut may undo that.";

pub const COMMANDS: [Command; 8] = [
    Command {
        name: "listing",
        operands: &["FIRST", "OFFER", "BOUND"],
        takes: &[],
        about: "Opens a fresh entry with FIRST, offers it OFFER and prints the proved program's line: the outcome, the edition, the\n\
                held and the first states, the percent saved, the two walks' counts and the word. Stores nothing.",
        examples: "  ./edition listing examples/f.ba examples/g.ba 1",
        run: commands::list,
    },
    Command {
        name: "contain",
        operands: &["FIRST", "SECOND", "BOUND"],
        takes: &[Choice::Slots, Choice::Dot],
        about: "Says whether every run prefix of FIRST has one of SECOND on the same word with lag at most BOUND: contained, with the\n\
                number of vertices walked, or differs, with the place of the final vertex and a word that shows it. The walk has N\n\
                slots, at most 4,096. --dot draws the lag-checking graph, with the path to the final vertex in red.",
        examples: "  ./edition contain examples/g.ba examples/f.ba 0\n  \
                   ./edition contain examples/g.ba examples/f.ba 0 --dot | dot -Tsvg > walk.svg",
        run: commands::contain,
    },
    Command {
        name: "open",
        operands: &[STORE, "FILE"],
        takes: &[],
        about: "Makes FILE the first edition of the entry in STORE. A STORE that does not exist is made.",
        examples: "  ./edition open entry.store examples/f.ba",
        run: commands::open,
    },
    Command {
        name: "offer",
        operands: &[STORE, "FILE", "BOUND"],
        takes: &[],
        about: "Offers FILE as a smaller edition of the entry in STORE: taken, or forward or back with the word that shows why not.\n\
                STORE changes only if the offer is taken, and then whole: a kill or another offer at the same time loses nothing.",
        examples: "  ./edition offer entry.store examples/g.ba 1",
        run: commands::offer,
    },
    Command {
        name: "verdict",
        operands: &[STORE, "STEM", "LOOP"],
        takes: &[],
        about: "Says whether the automaton in STORE accepts the letters of STEM followed by those of LOOP without end.",
        examples: "  ./edition verdict entry.store '' 0,1\n  ./edition verdict entry.store 1 0",
        run: commands::verdict,
    },
    Command {
        name: "write",
        operands: &["FILE", OUT],
        takes: &[],
        about: "Writes the automaton of FILE in the fixed form: the header, the accepting states from the lowest up, the transitions by\n\
                source, letter and target, the end. Files that hold the same automaton give the same bytes. They go to OUT, which may\n\
                be FILE and is replaced whole or not at all, or to standard output; with --json and without OUT they are in the\n\
                object, in hexadecimal. Dead states do not matter.",
        examples: "  ./edition write examples/dead/until-sink.ba sink.ba\n  ./edition write - < examples/g.ba > g.ba",
        run: commands::write,
    },
    Command {
        name: "hanoi",
        operands: &["TEXT", OUT],
        takes: &[Choice::DropExtra],
        about: "Writes the automaton of a text in the Hanoi Omega-Automata format, version 1, in the fixed form: to OUT or to standard\n\
                output, as write does. Of that format a subset is read: at most 32 states and 4 propositions, Büchi acceptance on states, a\n\
                label on every edge, no header items but HOA, States, Start, AP, acc-name and Acceptance in this order. Proposition 0 is\n\
                the lowest bit of a letter. --drop-extra first takes out, and lists, what has no effect on the automaton and is not in\n\
                the subset: header items whose name begins with a small letter (but not acc-name), state names and comments.",
        examples: "  ./edition hanoi examples/g.hoa g.ba\n  \
                   ./edition hanoi --drop-extra examples/translated/response.hoa response.ba",
        run: commands::hanoi,
    },
    Command {
        name: "show",
        operands: &["FILE|STORE"],
        takes: &[Choice::Dot, Choice::Never, Choice::Hoa],
        about: "Shows the automaton in a file, dead states marked, and whether the file is in the fixed form; or the entry in a STORE.\n\
                --dot draws the automaton. --never prints it as a never claim for SPIN, over the propositions p0, p1 and so on: p0\n\
                holds in the letters whose lowest bit is 1, p1 goes by the next bit. So the number of letters is 1, 2, 4, 8 or 16.\n\
                --hoa prints it as a Hanoi text over the same propositions, which hanoi reads as this automaton; with --json the text\n\
                is a field of the object.",
        examples: "  ./edition show examples/g.ba\n  ./edition show entry.store --dot | dot -Tsvg > entry.svg\n  \
                   ./edition show examples/response.ba --never > response.pml\n  ./edition show examples/response.ba --hoa > response.hoa",
        run: commands::show,
    },
];
