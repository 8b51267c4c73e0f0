//! The slots that a walk leaves in the work buffer, for display and for studies of walks.

use crate::layout;

pub use crate::layout::SLOT_BYTES;

/// The counters of a vertex, one for each right-hand state.
pub const COUNTERS: usize = layout::STATES;

/// A vertex of the discovery list.
#[derive(Clone, Copy, Debug, PartialEq, Eq)]
pub struct Slot {
    /// The left state.
    pub state: u8,
    /// The counters of the right-hand states.
    pub counters: [u8; COUNTERS],
    /// The parent's slot number and the letter of the step from it; the initial vertex has none.
    pub parent: Option<(u16, u8)>,
}

/// The first `count` slots of a work buffer, as far as it has them.
///
/// ```
/// use edition::{slots, Buffers, Outcome};
///
/// let h = b"AH\x01\x01\x00AF\x00AT\x00\x00\x00AE";
/// let j = b"AH\x02\x01\x00AF\x01AT\x00\x00\x01AT\x01\x00\x01AE";
/// let mut buffers = Buffers::largest();
/// assert_eq!(buffers.contain(h, j, 1), Ok(Outcome::Contained { count: 2 }));
///
/// let slots = slots::of_work(buffers.work(), 2);
/// assert_eq!((slots[0].counters[0], slots[0].parent), (1, None));
/// assert_eq!((slots[1].counters[1], slots[1].parent), (2, Some((0, 0))));
/// ```
pub fn of_work(work: &[u8], count: u16) -> Vec<Slot> {
    let written = work.chunks_exact(SLOT_BYTES).take(usize::from(count));
    written
        .enumerate()
        .map(|(number, bytes)| of_bytes(number, bytes))
        .collect()
}

fn of_bytes(number: usize, bytes: &[u8]) -> Slot {
    Slot {
        state: layout::slot_state(bytes),
        counters: layout::slot_counters(bytes),
        parent: (number > 0).then(|| layout::slot_parent(bytes)),
    }
}
