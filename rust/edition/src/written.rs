use crate::refusal::{Argument, Values};
use crate::{archive, bits, Refusal, MAX_FILE};

/// The file's automaton as a file in the fixed form: the header, the accepting states from the lowest up, the transitions by source,
/// letter and target, the end.
///
/// Files that hold the same automaton give the same bytes, so these may serve as its name. A file in the fixed form gives itself.
/// Dead states do not matter. Refusals: 1 to 5.
///
/// ```
/// let j = b"AH\x02\x01\x00AF\x01AT\x00\x00\x01AT\x01\x00\x01AE";
/// let the_same = b"AH\x02\x01\x00AT\x01\x00\x01AT\x00\x00\x01AF\x01AE";
/// assert_eq!(edition::write(the_same)?, j);
/// assert_eq!(edition::write(j)?, j);
/// # Ok::<(), edition::Refusal>(())
/// ```
pub fn write(file: &[u8]) -> Result<Vec<u8>, Refusal> {
    whole(|out| write_into(file, out))
}

/// As [`write()`], to the front of a buffer: gives the length of the written file. Bytes past it keep their contents, and with a refusal
/// all do. Refusals: 1 to 5, then 16 where the buffer is shorter than the file; [`MAX_FILE`] bytes are always enough.
///
/// ```
/// use edition::{write_into, Refusal};
///
/// let h = b"AH\x01\x01\x00AF\x00AT\x00\x00\x00AE";
/// let mut out = [7; 16];
/// assert_eq!(write_into(h, &mut out[..14]), Err(Refusal::Room { needed: 15 }));
/// assert_eq!(out, [7; 16]);
/// assert_eq!(write_into(h, &mut out), Ok(15));
/// assert_eq!(out, *b"AH\x01\x01\x00AF\x00AT\x00\x00\x00AE\x07");
/// ```
///
/// The buffer cannot overlap the file:
///
/// ```compile_fail,E0502
/// let mut file = *b"AH\x01\x01\x00AF\x00AT\x00\x00\x00AE";
/// let _ = edition::write_into(&file, &mut file);
/// ```
pub fn write_into(file: &[u8], out: &mut [u8]) -> Result<usize, Refusal> {
    length(archive::file_write(file, out), None)
}

/// What is written into a buffer that is long enough for every file.
pub(crate) fn whole(into: impl FnOnce(&mut [u8]) -> Result<usize, Refusal>) -> Result<Vec<u8>, Refusal> {
    let mut out = vec![0; MAX_FILE];
    let length = into(&mut out)?;
    out.truncate(length);
    out.shrink_to_fit();
    Ok(out)
}

/// The length that a number of `file_write` or `hanoi_write` gives, or the refusal, which speaks of `file`.
pub(crate) fn length(number: u64, file: Option<Argument>) -> Result<usize, Refusal> {
    let length = bits(number, 8, 32) as u32;
    match bits(number, 0, 8) {
        0 => Ok(length as usize),
        kind => Err(Refusal::of_kind(
            kind,
            Values {
                file,
                room: length,
                ..Values::default()
            },
        )),
    }
}
