//! The processor time of this thread, which other programs on the machine do not add to. The only unsafe code of the package.

use std::time::Duration;

#[repr(C)]
struct Timespec {
    seconds: i64,
    nanoseconds: i64,
}

extern "C" {
    /// Of the C library, on Linux x86-64.
    fn clock_gettime(clock: i32, time: *mut Timespec) -> i32;
}

const THREAD_CPUTIME: i32 = 3;

/// The processor time that this thread has taken so far.
pub fn now() -> Duration {
    let mut time = Timespec {
        seconds: 0,
        nanoseconds: 0,
    };
    // SAFETY: the pointer is to a value of the structure that the function writes.
    let status = unsafe { clock_gettime(THREAD_CPUTIME, &mut time) };
    assert_eq!(status, 0, "the thread has a clock");
    Duration::new(time.seconds as u64, time.nanoseconds as u32)
}
