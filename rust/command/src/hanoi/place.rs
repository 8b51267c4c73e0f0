//! Lines and columns of a text.

/// A place in a text, for people: both numbers from 1.
#[derive(Clone, Copy, Debug, PartialEq, Eq)]
pub struct Place {
    pub line: usize,
    /// Counted in bytes.
    pub column: usize,
}

impl Place {
    /// The place of the byte with this number.
    pub fn of(text: &[u8], at: usize) -> Place {
        let before = &text[..at];
        let line_start = before.iter().rposition(|&byte| byte == b'\n').map_or(0, |end| end + 1);
        Place {
            line: before.iter().filter(|&&byte| byte == b'\n').count() + 1,
            column: at - line_start + 1,
        }
    }
}
