//! A fuzzer's bytes, read as Hanoi texts.

use differential::faults::{faulty, spoil_bytes, spoil_tokens};
use differential::texts::{spelt, would_touch, Described};

use crate::source::Source;

/// Most bytes of a text that is given by its bytes.
const MOST_BYTES: usize = 1024;

/// What texts are made of, and what is nearly that: eight pieces in a line, with two blanks between them.
const PIECES: [&str; 8] = [
    "HOA:  v1  States:  Start:  AP:  acc-name:  Buchi  Acceptance:",
    "Inf  --BODY--  State:  --END--  t  f  !  &",
    "|  (  )  [  ]  {  }  0",
    "1  2  3  4  5  9  32  33",
    "00  01  10  18446744073709551616  \"a\"  \"\"  \"  \\",
    "!!!!!!!!!!!!!!!!  ((((((((((((((((  ))))))))))))))))  !(!(!(!(!(!(!(!(  ))))))))  !0  0&1  0|1",
    "State: 0  State: 1  State: 1 {0}  {0}  [0] 0  [!0] 1  [t] 0  [f] 1",
    "AP: 0  AP: 2 \"a\" \"b\"  HOA: v1 States: 2 Start: 0  Acceptance: 1 Inf(0) --BODY--  Inf(0)  x  \0  :",
];

impl Source<'_> {
    /// Any bytes, pieces, a header with pieces behind it, or a drawn text, whole or not.
    pub fn text(&mut self) -> Vec<u8> {
        let tag = self.byte();
        match tag % 4 {
            0 => {
                let length = self.number() % MOST_BYTES;
                self.bytes(length).to_vec()
            }
            1 => self.with_pieces(String::new()),
            2 => {
                let header = self.header();
                let mut text = self.with_pieces(header);
                text.extend(b"--END--");
                text
            }
            _ => self.drawn_text(tag),
        }
    }

    /// A header whose numbers are mostly in range, up to its end.
    fn header(&mut self) -> String {
        let [states, start, count] = [self.byte() % 36, self.byte() % 36, self.byte() % 6];
        let names = "\"p\"".repeat(count.into());
        format!("HOA: v1 States: {states} Start: {start} AP: {count} {names} Acceptance: 1 Inf(0) --BODY-- State: 0")
    }

    /// The text with pieces behind it, each given by a byte: six bits for the piece, two for the white space before it, of which there may be none
    /// where some is needed.
    fn with_pieces(&mut self, front: String) -> Vec<u8> {
        let mut text = front.into_bytes();
        for _ in 0..self.byte() {
            let byte = usize::from(self.byte());
            let piece = PIECES[byte % 8].split("  ").nth(byte / 8 % 8).unwrap_or_default();
            match byte / 64 {
                0 if would_touch(&text, piece.as_bytes()) => text.push(b' '),
                1 => text.push(b' '),
                2 => text.push(b'\n'),
                _ => {}
            }
            text.extend(piece.as_bytes());
        }
        text
    }

    /// The text of something drawn, spelt in a drawn way; by the tag's upper bits whole, with faults, or spoilt.
    fn drawn_text(&mut self, tag: u8) -> Vec<u8> {
        let described = Described::drawn(&mut self.random());
        let random = &mut self.random();
        let mut tokens = described.tokens(random);
        match tag / 64 {
            0 => {}
            1 => tokens = faulty(random, &described, &tokens).0,
            _ => spoil_tokens(random, &mut tokens),
        }
        let mut text = spelt(random, &tokens);
        if tag >= 192 {
            spoil_bytes(random, &mut text);
        }
        text
    }
}
