//! The table's examples of files that are refused.

/// A file of one state and one letter that goes on with the given bytes.
fn after_header(more: &[u8]) -> Vec<u8> {
    [&[0x41, 0x48, 1, 1, 0], more].concat()
}

/// Files with refusals 1 to 5.
pub fn faulty() -> [Vec<u8>; 5] {
    [
        vec![],
        vec![0x41, 0x46, 0x00],
        vec![0x41, 0x48, 0x00, 0x01, 0x00],
        after_header(&[0x41, 0x46, 0x01]),
        after_header(&[0x41, 0x46, 0x00, 0x41, 0x46, 0x00]),
    ]
}

/// A file with refusal 6 and one letter.
pub fn dead() -> Vec<u8> {
    after_header(&[0x41, 0x45])
}
