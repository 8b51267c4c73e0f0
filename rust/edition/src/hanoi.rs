use crate::written::{length, whole};
use crate::{archive, layout, Argument, Refusal};

/// The automaton of a Hanoi text as a file in the fixed form, see [`write()`](crate::write()), which the other calls take.
///
/// The text is of the subset of the Hanoi Omega-Automata format, version 1, that the repository's reference describes: at most 32
/// states and 4 propositions, Büchi acceptance on states, and a label for each edge. An edge gives a transition for each letter at
/// which its label is true; bit 0 of a letter is proposition 0. Dead states do not matter. Refusals: 17, 18, 3 and 4, by what stands first in the text.
///
/// ```
/// let text = br#"HOA: v1 States: 2 Start: 0 AP: 1 "p" acc-name: Buchi Acceptance: 1 Inf(0)
///     --BODY-- State: 0 [t] 0 [0] 1 State: 1 {0} [t] 1 --END--"#;
/// let file = edition::from_hanoi(text)?;
/// assert_eq!(file, b"AH\x02\x02\0AF\x01AT\0\0\0AT\0\x01\0AT\0\x01\x01AT\x01\0\x01AT\x01\x01\x01AE");
/// assert_eq!(edition::from_hanoi(b"HOA: v1 name: \"F p\""), Err(edition::Refusal::Text));
/// # Ok::<(), edition::Refusal>(())
/// ```
pub fn from_hanoi(text: &[u8]) -> Result<Vec<u8>, Refusal> {
    whole(|out| from_hanoi_into(text, out))
}

/// As [`from_hanoi`], to the front of a buffer: gives the length of the written file. Bytes past it keep their contents, and with a refusal
/// all do. Refusals: 17, 18, 3 and 4, then 16 where the buffer is shorter than the file; [`MAX_FILE`](crate::MAX_FILE) bytes are always enough.
///
/// ```
/// use edition::{from_hanoi_into, Refusal};
///
/// let h = b"HOA: v1 States: 1 Start: 0 AP: 0 Acceptance: 1 Inf(0) --BODY-- State: 0 {0} [t] 0 --END--";
/// let mut out = [7; 16];
/// assert_eq!(from_hanoi_into(h, &mut out[..14]), Err(Refusal::Room { needed: 15 }));
/// assert_eq!(out, [7; 16]);
/// assert_eq!(from_hanoi_into(h, &mut out), Ok(15));
/// assert_eq!(out, *b"AH\x01\x01\x00AF\x00AT\x00\x00\x00AE\x07");
/// ```
///
/// The buffer cannot overlap the text:
///
/// ```compile_fail,E0502
/// let mut text = *b"HOA: v1 States: 1 Start: 0 AP: 0 Acceptance: 1 Inf(0) --BODY-- --END--";
/// let _ = edition::from_hanoi_into(&text, &mut text);
/// ```
pub fn from_hanoi_into(text: &[u8], out: &mut [u8]) -> Result<usize, Refusal> {
    length(archive::hanoi_write(text, out), Some(Argument::Text))
}

/// Whether the bytes begin as a Hanoi text does, white space aside: what a program that takes texts and automaton files goes by. Whether
/// they are a text of the subset is judged by [`from_hanoi`].
///
/// ```
/// assert!(edition::is_hanoi(b"\n HOA: v1"));
/// assert!(!edition::is_hanoi(b"AH\x01\x01\x00AF\x00AT\x00\x00\x00AE"));
/// ```
pub fn is_hanoi(bytes: &[u8]) -> bool {
    layout::is_hanoi_meant(bytes)
}
