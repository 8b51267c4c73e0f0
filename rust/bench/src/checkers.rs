//! The two checkers behind the same functions on bytes and numbers.

use differential::entries::Calls;
use edition::archive;

/// First file, second file, bound, work, word.
type ContainCall = fn(&[u8], &[u8], u64, &mut [u8], &mut [u8]) -> u64;

type WriteCall = fn(&[u8], &mut [u8]) -> u64;

pub struct Checker {
    pub name: &'static str,
    pub contain: ContainCall,
    pub entry: Calls,
    /// File, output.
    pub write: WriteCall,
    /// Text, output.
    pub hanoi: WriteCall,
}

pub const KERNEL: Checker = Checker {
    name: "kernel",
    contain: archive::contain,
    entry: Calls::KERNEL,
    write: archive::file_write,
    hanoi: archive::hanoi_write,
};

pub const SECOND: Checker = Checker {
    name: "second",
    contain: second::contain,
    entry: Calls::SECOND,
    write: second::file_write,
    hanoi: second::hanoi_write,
};
