//! The refusals: document 01's table, and the rows that S-1 and S-2 add to it.

use std::error::Error;
use std::fmt;

use crate::MAX_SLOTS;

/// What a refusal speaks of: one of the two files of [`contain`](crate::contain), or the text of [`from_hanoi`](crate::from_hanoi).
#[derive(Clone, Copy, Debug, PartialEq, Eq)]
pub enum Argument {
    /// The first file.
    First,
    /// The second file.
    Second,
    /// The Hanoi text.
    Text,
}

/// Which of the two walks of an offer a refusal speaks of.
#[derive(Clone, Copy, Debug, PartialEq, Eq)]
pub enum Walk {
    /// The held automaton left, the offer right.
    Forward,
    /// The offer left, the held automaton right.
    Back,
}

/// Why a call was refused. A refused call has changed no entry, no word buffer and no output buffer.
///
/// `file` is `None` where the call has one automaton file only, and the text where a Hanoi text is read; `walk` is `None` where it makes one walk only.
///
/// ```
/// use edition::{Argument, Buffers, Refusal};
///
/// let one_state = b"AH\x01\x01\x00AF\x00AT\x00\x00\x00AE";
/// let refusal = Buffers::largest().contain(one_state, b"", 1).unwrap_err();
/// assert_eq!(refusal, Refusal::Ends { file: Some(Argument::Second) });
/// assert_eq!(refusal.number(), 1);
/// assert_eq!(refusal.to_string(), "the second file ends inside a record or has no end record");
/// ```
#[derive(Clone, Copy, Debug, PartialEq, Eq)]
pub enum Refusal {
    /// 1: the file is cut short inside a record, or has no end record.
    Ends {
        /// The file.
        file: Option<Argument>,
    },
    /// 2: a mark is unknown or misplaced, or bytes follow the end.
    Mark {
        /// The file.
        file: Option<Argument>,
    },
    /// 3: a header value is outside its range; of a Hanoi text, States or Start.
    Header {
        /// The file.
        file: Option<Argument>,
    },
    /// 4: a state or a letter is not in the header; of a Hanoi text, a state that is declared or is a target.
    Outside {
        /// The file.
        file: Option<Argument>,
    },
    /// 5: an accepting or transition record is repeated.
    Repeated {
        /// The file.
        file: Option<Argument>,
    },
    /// 6: a state is dead.
    Dead {
        /// The file.
        file: Option<Argument>,
    },
    /// 7: the letter counts differ.
    Letters,
    /// 8: the bound is above 14.
    Bound,
    /// 9: the entry value is malformed.
    Malformed,
    /// 10: the walk needs more slots.
    Slots {
        /// The walk.
        walk: Option<Walk>,
        /// How many slots the work buffer has.
        slots: u16,
    },
    /// 11: the word buffer is shorter than the word.
    Word {
        /// The walk.
        walk: Option<Walk>,
        /// How many bytes the word needs.
        needed: u16,
    },
    /// 12: the entry is open already.
    AlreadyOpen,
    /// 13: the entry is empty.
    Empty,
    /// 14: the offer is not smaller, or the held edition is the last that can be numbered.
    NotSmaller,
    /// 15: the lasso word is out of range.
    Lasso,
    /// 16: the output buffer is shorter than the file.
    Room {
        /// How many bytes the file needs.
        needed: u32,
    },
    /// 17: the text is outside the subset of the Hanoi format, or has a proposition that AP lacks.
    Text,
    /// 18: the text has more than 4 propositions.
    Propositions,
}

/// The values that stand beside a refusal's number.
#[derive(Clone, Copy, Default)]
pub(crate) struct Values {
    pub file: Option<Argument>,
    pub walk: Option<Walk>,
    pub slots: u16,
    pub needed: u16,
    pub room: u32,
}

impl Refusal {
    /// The refusal of an answer's kind, 101 to 118, with the values that the answer gives.
    pub(crate) fn of_kind(kind: u64, values: Values) -> Refusal {
        let Values {
            file,
            walk,
            slots,
            needed,
            room,
        } = values;
        match kind {
            101 => Refusal::Ends { file },
            102 => Refusal::Mark { file },
            103 => Refusal::Header { file },
            104 => Refusal::Outside { file },
            105 => Refusal::Repeated { file },
            106 => Refusal::Dead { file },
            107 => Refusal::Letters,
            108 => Refusal::Bound,
            109 => Refusal::Malformed,
            110 => Refusal::Slots { walk, slots },
            111 => Refusal::Word { walk, needed },
            112 => Refusal::AlreadyOpen,
            113 => Refusal::Empty,
            114 => Refusal::NotSmaller,
            115 => Refusal::Lasso,
            116 => Refusal::Room { needed: room },
            117 => Refusal::Text,
            118 => Refusal::Propositions,
            _ => panic!("kind {kind} is no answer of the kernel: the archive is of another version"),
        }
    }

    /// The refusal of a number alone, 1 to 18, as the program `listing` prints some: without file and walk, its count 0.
    pub fn from_number(number: u8) -> Option<Refusal> {
        (1..=18)
            .contains(&number)
            .then(|| Refusal::of_kind(100 + u64::from(number), Values::default()))
    }

    /// The refusal's number in document 01's table.
    pub fn number(&self) -> u8 {
        match self {
            Refusal::Ends { .. } => 1,
            Refusal::Mark { .. } => 2,
            Refusal::Header { .. } => 3,
            Refusal::Outside { .. } => 4,
            Refusal::Repeated { .. } => 5,
            Refusal::Dead { .. } => 6,
            Refusal::Letters => 7,
            Refusal::Bound => 8,
            Refusal::Malformed => 9,
            Refusal::Slots { .. } => 10,
            Refusal::Word { .. } => 11,
            Refusal::AlreadyOpen => 12,
            Refusal::Empty => 13,
            Refusal::NotSmaller => 14,
            Refusal::Lasso => 15,
            Refusal::Room { .. } => 16,
            Refusal::Text => 17,
            Refusal::Propositions => 18,
        }
    }

    /// The file that the refusal speaks of, where the call has two, or a Hanoi text where 3 or 4 speak of one.
    pub fn file(&self) -> Option<Argument> {
        match *self {
            Refusal::Ends { file }
            | Refusal::Mark { file }
            | Refusal::Header { file }
            | Refusal::Outside { file }
            | Refusal::Repeated { file }
            | Refusal::Dead { file } => file,
            _ => None,
        }
    }

    /// The walk that the refusal speaks of, where the call makes two.
    pub fn walk(&self) -> Option<Walk> {
        match *self {
            Refusal::Slots { walk, .. } | Refusal::Word { walk, .. } => walk,
            _ => None,
        }
    }

    /// What to do about it, in plain words.
    pub fn advice(&self) -> String {
        match *self {
            Refusal::Slots { slots, .. } if usize::from(slots) >= MAX_SLOTS => {
                format!("no walk gets more than {MAX_SLOTS} slots: try a smaller bound or smaller automata")
            }
            _ => self.filled(self.row()[1]),
        }
    }

    fn row(&self) -> &'static Row {
        match (self.number(), self.file()) {
            (3, Some(Argument::Text)) => &TEXT_HEADER,
            (4, Some(Argument::Text)) => &TEXT_STATE,
            (number, _) => &ROWS[usize::from(number) - 1],
        }
    }

    /// The text with the refusal's own file, walk and count.
    fn filled(&self, text: &str) -> String {
        let file = match self.file() {
            None => "the file",
            Some(Argument::First) => "the first file",
            Some(Argument::Second) => "the second file",
            Some(Argument::Text) => "the text",
        };
        let walk = match self.walk() {
            None => "the walk",
            Some(Walk::Forward) => "the forward walk",
            Some(Walk::Back) => "the back walk",
        };
        let count = match *self {
            Refusal::Slots { slots, .. } => slots.into(),
            Refusal::Word { needed, .. } => needed.into(),
            Refusal::Room { needed } => needed,
            _ => 0,
        };
        text.replace("{file}", file)
            .replace("{walk}", walk)
            .replace("{count}", &count.to_string())
    }
}

impl fmt::Display for Refusal {
    fn fmt(&self, f: &mut fmt::Formatter<'_>) -> fmt::Result {
        f.write_str(&self.filled(self.row()[0]))
    }
}

impl Error for Refusal {}

/// What is wrong, and what to do about it.
type Row = [&'static str; 2];

/// Row 3 where it speaks of a Hanoi text.
const TEXT_HEADER: Row = [
    "{file} has States or Start outside its range",
    "give States from 1 to 32, and a Start below States",
];

/// Row 4 where it speaks of a Hanoi text.
const TEXT_STATE: Row = [
    "{file} declares or leads to a state that States does not have",
    "use only states below States, behind State: and as targets: they are numbered from 0",
];

/// The table's rows in order.
const ROWS: [Row; 18] = [
    [
        "{file} ends inside a record or has no end record",
        "write the file again: it was cut short, or its end record 41 45 is missing",
    ],
    [
        "{file} has an unknown or misplaced mark, or bytes after its end record",
        "begin with one header record (41 48), write only 41 46 and 41 54 after it, and nothing after the end record 41 45",
    ],
    [
        "{file} has a header value outside its range",
        "give 1 to 32 states, 1 to 16 letters and an initial state below the number of states",
    ],
    [
        "{file} uses a state or a letter that its header does not have",
        "use only states and letters below the header's counts: both are numbered from 0",
    ],
    [
        "{file} repeats an accepting or a transition record",
        "write each accepting and each transition record once",
    ],
    [
        "{file} has a dead state: a run reaches it, and none from it reaches an accepting state on a cycle",
        "remove the dead states and the transitions to them; `./edition show` marks them",
    ],
    ["the two automata have different numbers of letters", "write both automata over the same letters"],
    ["the bound is above 14", "give a bound from 0 to 14"],
    [
        "the entry is malformed: its length or a field is out of range, it has a dead state, fewer first states than held ones, \
         or an edition above 183,071",
        "restore the entry from a copy: no open or offer writes such bytes",
    ],
    [
        "{walk} needs more than the {count} slots that it has",
        "give more slots: each takes 40 bytes of the work buffer, and up to 4,096 are used",
    ],
    [
        "{walk} found a word of {count} letters, and the word buffer is shorter",
        "give a word buffer of {count} bytes or more",
    ],
    ["the entry is open already", "offer the file to this entry, or open it in a fresh one"],
    ["the entry is empty", "open the entry with a first edition"],
    [
        "the offer is not smaller than the held automaton, or edition 183,071 is held already",
        "offer an automaton with fewer states, or with as many states and fewer transitions",
    ],
    [
        "the lasso word is out of range: a stem over 4,096 letters, a loop that is empty or over 4,096, or a letter that the \
         automaton lacks",
        "give a loop of 1 to 4,096 letters and a stem of at most 4,096, of the letters that the automaton has",
    ],
    [
        "the file has {count} bytes in the fixed form, and the output buffer is shorter",
        "give an output buffer of {count} bytes or more; 82,023 are always enough",
    ],
    [
        "the text is outside the subset of the Hanoi format that is read, or has a proposition that AP lacks",
        "write no header items but HOA: v1, States, Start, AP, acc-name: Buchi and Acceptance: 1 Inf(0), in this order (`ltl2tgba -B -H` \
         prints name: and properties: too); accept on states, not on edges; give every edge a label and one target; leave out state \
         names, aliases and comments",
    ],
    [
        "the text has more than 4 propositions",
        "use at most 4 propositions, so that there are at most 16 letters",
    ],
];
