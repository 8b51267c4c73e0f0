//! The table of refusals.

/// Why a call was refused: one case for each row of the table in document 01, and for each number that document 02 adds to it.
#[derive(Clone, Copy, Debug, PartialEq, Eq)]
pub enum Refusal {
    /// 1: the file breaks off, within a record or before the end record.
    FileEnds,
    /// 2: a mark is unknown or misplaced, or bytes follow the end.
    Mark,
    /// 3: a header value is outside its range. In a Hanoi text: States or Start is.
    Header,
    /// 4: a state or letter is not in the header. In a Hanoi text: the number of a State or of a target is not below States.
    Outside,
    /// 5: an accepting or transition record is repeated.
    Repeated,
    /// 6: there is a dead state.
    Dead,
    /// 7: the letter counts differ.
    Letters,
    /// 8: the bound is above 14.
    Bound,
    /// 9: the entry value is malformed.
    Malformed,
    /// 10: the walk needs more slots than the `count` there are.
    Slots {
        /// Number of slots of the work buffer.
        count: usize,
    },
    /// 11: the word buffer is shorter than the word.
    Word {
        /// The word's length.
        needed: usize,
    },
    /// 12: the entry is already open.
    AlreadyOpen,
    /// 13: the entry is empty.
    Empty,
    /// 14: the offer is not smaller, or the held edition is the last possible one.
    NotSmaller,
    /// 15: the stem or the loop has a wrong length or a letter outside.
    Lasso,
    /// 16: the output buffer is shorter than the written file.
    Room {
        /// The file's length.
        needed: usize,
    },
    /// 17: the text is outside the subset of the Hanoi format, or has a proposition that AP lacks.
    Text,
    /// 18: there are more than 4 propositions.
    Propositions,
}

impl Refusal {
    /// The refusal's number in the table.
    pub fn number(self) -> u8 {
        match self {
            Refusal::FileEnds => 1,
            Refusal::Mark => 2,
            Refusal::Header => 3,
            Refusal::Outside => 4,
            Refusal::Repeated => 5,
            Refusal::Dead => 6,
            Refusal::Letters => 7,
            Refusal::Bound => 8,
            Refusal::Malformed => 9,
            Refusal::Slots { .. } => 10,
            Refusal::Word { .. } => 11,
            Refusal::AlreadyOpen => 12,
            Refusal::Empty => 13,
            Refusal::NotSmaller => 14,
            Refusal::Lasso => 15,
            Refusal::Room { .. } => 16,
            Refusal::Text => 17,
            Refusal::Propositions => 18,
        }
    }

    /// The kind that stands for the refusal in a call's number: 100 plus the refusal's number.
    pub fn kind(self) -> u64 {
        100 + u64::from(self.number())
    }

    /// The count that comes with the refusal: the number of slots with 10, else 0.
    pub fn count(self) -> u64 {
        match self {
            Refusal::Slots { count } => count as u64,
            _ => 0,
        }
    }

    /// The word length that comes with the refusal: the length needed with 11, else 0.
    pub fn word_length(self) -> u64 {
        match self {
            Refusal::Word { needed } => needed as u64,
            _ => 0,
        }
    }

    /// The file length that comes with the refusal: the length needed with 16, else 0.
    pub fn file_length(self) -> u64 {
        match self {
            Refusal::Room { needed } => needed as u64,
            _ => 0,
        }
    }
}

/// A refusal, with the one of several files or walks of the call that it is about.
#[derive(Clone, Copy, Debug, PartialEq, Eq)]
pub struct Located<P> {
    /// The row of the table.
    pub refusal: Refusal,
    /// Which file or walk, where it is about one.
    pub place: Option<P>,
}

impl<P> From<Refusal> for Located<P> {
    fn from(refusal: Refusal) -> Located<P> {
        Located { refusal, place: None }
    }
}

/// Says which file or walk a refusal is about.
pub fn at<P: Copy>(place: P) -> impl Fn(Refusal) -> Located<P> {
    move |refusal| Located {
        refusal,
        place: Some(place),
    }
}
