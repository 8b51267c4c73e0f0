//! The rows of the comparison.

use differential::writing::LONGEST;

use crate::calls::{make_all, Buffers, Call};
use crate::checkers::{KERNEL, SECOND};
use crate::inputs;

/// Some calls that are timed together.
pub struct Row {
    /// The name on the command line and in JSON.
    pub name: String,
    pub what: String,
    pub calls: Vec<Call>,
    /// The kind that each number of the row has.
    kind: u64,
}

/// Slots of the rows that give the time for each listed vertex; the first has none, so it has reading and checks alone.
pub const SLOTS: [usize; 4] = [0, 64, 512, 4096];

/// The rows that give the time for each written byte, and the bytes of their files.
pub const WRITES: [(&str, usize); 2] = [("write-half", 41_063), ("write-longest", LONGEST)];

/// The rows that give the time for each byte of a text with many edges, and their edges.
pub const TEXTS: [(&str, usize); 2] = [("hanoi-half", 2_048), ("hanoi-large", 4_096)];

/// The rows that give the time for each byte of a text with a long label, and its operands.
pub const CHAINS: [(&str, usize); 2] = [("hanoi-half-chain", 50_000), ("hanoi-chain", 100_000)];

/// The name of the row with so many slots.
pub fn slots_name(slots: usize) -> String {
    format!("slots-{slots}")
}

pub fn all() -> Vec<Row> {
    let slots = SLOTS.map(with_slots).into();
    let contains = [by_size(), full(), slots];
    let others = [verdicts(), histories(), longest(), writes(), texts()];
    contains.into_iter().chain(others).flatten().collect()
}

fn row(name: &str, what: &str, kind: u64, calls: Vec<Call>) -> Row {
    Row {
        name: name.to_string(),
        what: what.to_string(),
        calls,
        kind,
    }
}

fn by_size() -> Vec<Row> {
    let small = "contain, 2 to 12 states";
    let dense = "contain, 32 states dense";
    vec![
        row("small-contained", small, 0, inputs::small_pairs(0)),
        row("small-differs", small, 1, inputs::small_pairs(1)),
        row("dense-contained", dense, 0, inputs::dense_contained()),
        row("dense-differs", dense, 1, inputs::dense_differs()),
    ]
}

fn full() -> Vec<Row> {
    let what = "contain, 4,096 slots filled";
    let larger = "contain, 4,096 slots filled, 32 states";
    vec![
        row("full-contained", what, 0, inputs::full_contained()),
        row("full-differs", what, 1, inputs::full_differs()),
        row("full-refused", larger, 110, inputs::full_refused()),
    ]
}

fn with_slots(slots: usize) -> Row {
    let what = format!("contain, refused 10 with {slots} slots");
    row(&slots_name(slots), &what, 110, inputs::with_slots(slots))
}

fn verdicts() -> Vec<Row> {
    let small = "verdict, 4,096 + 4,096 letters, 8 states";
    let dense = "verdict, 4,096 + 4,096 letters, 32 states dense";
    vec![
        row("verdict-small", small, 0, inputs::small_verdict()),
        row("verdict-dense", dense, 1, inputs::dense_verdict()),
    ]
}

fn histories() -> Vec<Row> {
    let small = "open and 8 offers taken, 12 to 4 states";
    let large = "open and 8 offers taken, 32 to 24 states";
    vec![
        row("open-small", "open, 2 to 12 states", 0, inputs::small_opens()),
        row("history-small", small, 0, inputs::small_history()),
        row("history-large", large, 0, inputs::large_history()),
    ]
}

fn longest() -> Vec<Row> {
    let whole = "open, the longest file, 82,023 bytes";
    let cut = "open, the longest file without its end, refused 1";
    vec![
        row("longest-opened", whole, 0, inputs::longest_opened()),
        row("longest-refused", cut, 101, inputs::longest_refused()),
    ]
}

fn writes() -> Vec<Row> {
    let [(half, half_bytes), (longest, longest_bytes)] = WRITES;
    let whole = "file_write, the longest file, 82,023 bytes";
    vec![
        row("write-small", "file_write, 2 to 12 states", 0, inputs::small_writes()),
        row(half, "file_write, 41,063 bytes", 0, inputs::large_write(half_bytes)),
        row(longest, whole, 0, inputs::large_write(longest_bytes)),
    ]
}

/// The number with a comma before every three digits.
fn grouped(number: usize) -> String {
    match number {
        0..=999 => number.to_string(),
        _ => format!("{},{:03}", grouped(number / 1000), number % 1000),
    }
}

fn texts() -> Vec<Row> {
    let text = |name: &str, what: &str, calls: Vec<Call>| {
        let mut row = row(name, what, 0, calls);
        row.what = format!("hanoi_write, {what}, {} bytes", grouped(row.bytes()));
        row
    };
    let mut rows = vec![
        text("hanoi-small", "F", inputs::small_text()),
        text("hanoi-middle", "12 states, 60 edges", inputs::drawn_text(12, 3, 60)),
    ];
    for (name, edges) in TEXTS {
        let what = format!("32 states, {} edges", grouped(edges));
        rows.push(text(name, &what, inputs::drawn_text(32, 4, edges)));
    }
    for (name, operands) in CHAINS {
        let what = format!("{} operands", grouped(operands));
        rows.push(text(name, &what, inputs::chain_text(operands)));
    }
    rows
}

impl Row {
    /// The bytes that the calls read, of those that read a text or a file to write.
    pub fn bytes(&self) -> usize {
        self.calls.iter().map(Call::bytes).sum()
    }

    /// Makes the row's calls with both checkers: the fault, if an answer is not of the row's kind or the two differ in an answer or a
    /// written byte.
    pub fn check(&self) -> Result<(), String> {
        let (mut kernel, mut second) = (Buffers::filled(), Buffers::filled());
        make_all(&self.calls, &KERNEL, &mut kernel);
        make_all(&self.calls, &SECOND, &mut second);
        let name = &self.name;
        if kernel != second {
            let (kernel, second) = (&kernel.numbers, &second.numbers);
            return Err(format!(
                "{name}: the checkers differ; numbers of the kernel {kernel:?}, of the second {second:?}"
            ));
        }
        match kernel.numbers.iter().find(|&number| number & 0xFF != self.kind) {
            Some(number) => Err(format!("{name}: kind {} wanted, number {number}", self.kind)),
            None => Ok(()),
        }
    }
}
