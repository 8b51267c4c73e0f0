//! The archive's functions as safe functions that give its plain numbers. This is the only place with unsafe code.
//!
//! The other modules take these numbers apart. They are public for callers that store or compare the numbers themselves. An
//! entry is any bytes here, and the archive answers bytes that are no entry with refusal 9.

mod exported {
    extern "C" {
        pub fn contain(
            first: *const u8,
            first_length: usize,
            second: *const u8,
            second_length: usize,
            bound: u64,
            work: *mut u8,
            work_length: usize,
            word: *mut u8,
            word_length: usize,
        ) -> u64;

        pub fn entry_open(entry: *mut u8, entry_length: usize, file: *const u8, file_length: usize) -> u64;

        pub fn entry_offer(
            entry: *mut u8,
            entry_length: usize,
            file: *const u8,
            file_length: usize,
            bound: u64,
            work: *mut u8,
            work_length: usize,
            word: *mut u8,
            word_length: usize,
        ) -> u64;

        pub fn entry_verdict(
            entry: *const u8,
            entry_length: usize,
            stem: *const u8,
            stem_length: usize,
            cycle: *const u8,
            cycle_length: usize,
        ) -> u64;

        pub fn file_write(file: *const u8, file_length: usize, out: *mut u8, out_length: usize) -> u64;

        pub fn hanoi_write(text: *const u8, text_length: usize, out: *mut u8, out_length: usize) -> u64;
    }
}

/// Kind + 2^8 times count + 2^24 times word length: kind 0 contained, 1 differs, 100 plus a refusal's number.
pub fn contain(first: &[u8], second: &[u8], bound: u64, work: &mut [u8], word: &mut [u8]) -> u64 {
    // SAFETY: each pointer comes with its slice's length, and the borrows keep written buffers apart from all others.
    unsafe {
        exported::contain(
            first.as_ptr(),
            first.len(),
            second.as_ptr(),
            second.len(),
            bound,
            work.as_mut_ptr(),
            work.len(),
            word.as_mut_ptr(),
            word.len(),
        )
    }
}

/// 0 opened, 100 plus a refusal's number.
pub fn entry_open(entry: &mut [u8], file: &[u8]) -> u64 {
    // SAFETY: as for contain.
    unsafe { exported::entry_open(entry.as_mut_ptr(), entry.len(), file.as_ptr(), file.len()) }
}

/// Kind + 2^8 times forward count + 2^24 times back count + 2^40 times word length + 2^56 times walk: kind 0 taken, 1 forward,
/// 2 back, 100 plus a refusal's number.
pub fn entry_offer(entry: &mut [u8], file: &[u8], bound: u64, work: &mut [u8], word: &mut [u8]) -> u64 {
    // SAFETY: as for contain.
    unsafe {
        exported::entry_offer(
            entry.as_mut_ptr(),
            entry.len(),
            file.as_ptr(),
            file.len(),
            bound,
            work.as_mut_ptr(),
            work.len(),
            word.as_mut_ptr(),
            word.len(),
        )
    }
}

/// On the lasso word of the stem and the loop `cycle`: 0 no, 1 yes, 100 plus a refusal's number.
pub fn entry_verdict(entry: &[u8], stem: &[u8], cycle: &[u8]) -> u64 {
    // SAFETY: each pointer comes with its slice's length; nothing is written.
    unsafe {
        exported::entry_verdict(
            entry.as_ptr(),
            entry.len(),
            stem.as_ptr(),
            stem.len(),
            cycle.as_ptr(),
            cycle.len(),
        )
    }
}

/// Kind + 2^8 times length: kind 0 written, 100 plus a refusal's number; the length is that of the written file, with refusal 16 the
/// one needed.
pub fn file_write(file: &[u8], out: &mut [u8]) -> u64 {
    // SAFETY: as for contain.
    unsafe { exported::file_write(file.as_ptr(), file.len(), out.as_mut_ptr(), out.len()) }
}

/// The same of a Hanoi text: kind + 2^8 times length.
pub fn hanoi_write(text: &[u8], out: &mut [u8]) -> u64 {
    // SAFETY: as for contain.
    unsafe { exported::hanoi_write(text.as_ptr(), text.len(), out.as_mut_ptr(), out.len()) }
}
