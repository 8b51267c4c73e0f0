//! Calls that write a file in the fixed form: the kernel against the second checker. Of `file_write`, both against the files of drawn automata.

use edition::archive;
use second::automaton::{MAX_LETTERS, MAX_STATES};
use second::dead::dead_states;
use second::ENTRY_BYTES;

use crate::automata::{damaged, draw_letters, draw_states, full, worked, Plain};
use crate::buffer::Buffer;
use crate::random::Random;
use crate::tally::Tally;

/// Every outcome of file_write: its kind, for a written file with 1 if the automaton has dead states.
pub const OUTCOMES: [(u64, u64); 8] = [
    (0, 0),
    (0, 1),
    (101, 0),
    (102, 0),
    (103, 0),
    (104, 0),
    (105, 0),
    (116, 0),
];

/// Bytes of the longest file.
pub const LONGEST: usize = 82_023;

/// A call that writes a file: what it takes, and the functions of both checkers.
pub struct Call {
    input: &'static str,
    kernel: fn(&[u8], &mut [u8]) -> u64,
    second: fn(&[u8], &mut [u8]) -> u64,
}

pub const FILE_WRITE: Call = Call {
    input: "file",
    kernel: archive::file_write,
    second: second::file_write,
};

pub const HANOI_WRITE: Call = Call {
    input: "text",
    kernel: archive::hanoi_write,
    second: second::hanoi_write,
};

/// What a call comes to.
pub struct Answer {
    pub number: u64,
    /// The lent buffer after the call.
    out: Buffer,
}

impl Answer {
    /// The file that is written, if one is.
    fn file(&self) -> Option<&[u8]> {
        (self.number & 0xFF == 0).then(|| &self.out.contents()[..(self.number >> 8) as usize])
    }
}

/// Calls both checkers with equal arguments and compares the number and every byte of the buffer and its guards. A refusal has to leave all
/// bytes as they were, and a written file those past it. The answer is the second checker's.
pub fn compare(call: &Call, random: &mut Random, tally: &mut Tally, name: &str, input: &[u8], room: usize) -> Answer {
    let lent = Buffer::holding(random, input);
    let kept = lent.clone();
    let before = Buffer::filled(random, room);
    let (mut kernel, mut second) = (before.clone(), before.clone());
    let got = (call.kernel)(lent.contents(), kernel.lent());
    let number = (call.second)(input, second.lent());
    let answer = Answer { number, out: second };
    tally.add(number & 0xFF, has_dead_states(&answer).into());
    let mut faults = Vec::new();
    if got != number {
        faults.push(format!("kernel {got}, second {number}"));
    }
    if let Some(place) = kernel.difference(&answer.out) {
        faults.push(format!("the buffer differs at {place}"));
    }
    if lent != kept {
        faults.push("the input was written".to_string());
    }
    let length = answer.file().map_or(0, <[u8]>::len);
    if answer.out.contents()[length..] != before.contents()[length..] {
        faults.push(format!("the second checker writes past {length} bytes"));
    }
    if !faults.is_empty() {
        let what = format!("{name}, {room} bytes of room: {}", faults.join("; "));
        tally.disagree(&what, &[(call.input, input)]);
    }
    answer
}

/// Is an automaton with dead states written?
fn has_dead_states(answer: &Answer) -> bool {
    let automaton = answer.file().and_then(|file| second::file::read(file).ok());
    automaton.is_some_and(|automaton| dead_states(&automaton) != 0)
}

/// Compares a call whose answer is known: the second file, which is in order, if there is room for it.
pub fn compare_known(call: &Call, random: &mut Random, tally: &mut Tally, name: &str, files: [&[u8]; 2], room: usize) {
    let [input, in_order] = files;
    let answer = compare(call, random, tally, name, input, room);
    let is_known = match answer.file() {
        Some(written) => written == in_order,
        None => answer.number == 116 + ((in_order.len() as u64) << 8) && room < in_order.len(),
    };
    if !is_known {
        let what = format!("{name}, {room} bytes of room: second {}, or other bytes", answer.number);
        tally.disagree(&what, &[(call.input, input), ("file in order", in_order)]);
    }
}

/// Lengths of a buffer about the length needed, and others.
pub fn rooms(random: &mut Random, needed: usize) -> [usize; 6] {
    let more = random.between(2, 300);
    [0, 1, needed - 1, needed, needed + 1, needed + more]
}

/// The number of the kernel's open on a fresh entry, and the entry afterwards.
fn opened(file: &[u8]) -> (u64, Vec<u8>) {
    let mut entry = vec![0; ENTRY_BYTES];
    (archive::entry_open(&mut entry, file), entry)
}

/// Notes a disagreement if the file in order does not hold the automaton for the second checker, or if the kernel's open tells it from the file; that sees the
/// automaton only where no state is dead.
fn read_back(tally: &mut Tally, name: &str, plain: &Plain, files: [&[u8]; 2]) {
    let [file, in_order] = files;
    let read = second::file::read(in_order).map(|automaton| Plain::from_automaton(&automaton));
    if read.as_ref() != Ok(plain) || opened(in_order) != opened(file) {
        let what = format!("{name}: another automaton is read back");
        tally.disagree(&what, &[("file", file), ("file in order", in_order)]);
    }
}

/// Any automaton, mostly one with dead states; now and then one without records, or with all of them.
fn draw(random: &mut Random) -> Plain {
    let (states, letters) = (draw_states(random), draw_letters(random));
    match random.below(12) {
        0 => Plain::bare(states, letters, random.below(states)),
        1 => full(states, letters),
        2..=4 => Plain::drawn(random, states, letters).trimmed(),
        _ => Plain::drawn(random, states, letters),
    }
}

/// Drawn automata, each in two orders of its records with buffers of several lengths; what is written is read back and written again.
pub fn drawn_files(tally: &mut Tally, seed: u64, cases: usize) {
    for case in 0..cases {
        let random = &mut Random::new(seed, case);
        let plain = draw(random);
        let name = format!("file {case} of seed {seed:#x}");
        let (file, in_order) = (plain.shuffled_file(random), plain.file());
        for room in rooms(random, in_order.len()) {
            compare_known(&FILE_WRITE, random, tally, &name, [&file, &in_order], room);
        }
        let other = plain.shuffled_file(random);
        for (order, file) in [("another order", &other), ("in order", &in_order)] {
            let name = format!("{name}, {order}");
            compare_known(&FILE_WRITE, random, tally, &name, [file, &in_order], in_order.len());
        }
        read_back(tally, &name, &plain, [&file, &in_order]);
    }
}

/// A length of a buffer about that of a file which may not be readable.
pub fn draw_room(random: &mut Random, length: usize) -> usize {
    random.pick(&[0, 1, length.saturating_sub(1), length, length + 1, length + 100])
}

/// Drawn files that are spoilt.
pub fn damaged_files(tally: &mut Tally, seed: u64, cases: usize) {
    for case in 0..cases {
        let random = &mut Random::new(seed, case);
        let file = draw(random).shuffled_file(random);
        let file = damaged(random, &file);
        let room = draw_room(random, file.len());
        let name = format!("damaged file {case} of seed {seed:#x}");
        compare(&FILE_WRITE, random, tally, &name, &file, room);
    }
}

/// Every truncation and every change of one byte of the worked files.
pub fn worked_files(tally: &mut Tally, seed: u64) {
    let random = &mut Random::new(seed, 0);
    for (name, plain) in worked() {
        let file = plain.file();
        for length in 0..file.len() {
            let room = draw_room(random, length);
            compare(
                &FILE_WRITE,
                random,
                tally,
                &format!("{name} cut to {length}"),
                &file[..length],
                room,
            );
        }
        for place in 0..file.len() {
            for change in 1..=255 {
                let mut changed = file.clone();
                changed[place] ^= change;
                let room = draw_room(random, file.len());
                let what = format!("{name} with byte {place} {:#04x}", changed[place]);
                compare(&FILE_WRITE, random, tally, &what, &changed, room);
            }
        }
    }
}

/// Automata without records and with all of them, up to the longest file, and that file with each fault.
pub fn limits(tally: &mut Tally, seed: u64) {
    let random = &mut Random::new(seed, 0);
    for states in 1..=MAX_STATES {
        for letters in [1, 2, MAX_LETTERS - 1, MAX_LETTERS] {
            for plain in [Plain::bare(states, letters, states - 1), full(states, letters)] {
                let (file, in_order) = (plain.shuffled_file(random), plain.file());
                for room in rooms(random, in_order.len()) {
                    compare_known(
                        &FILE_WRITE,
                        random,
                        tally,
                        "no records, or all",
                        [&file, &in_order],
                        room,
                    );
                }
            }
        }
    }
    let longest = full(MAX_STATES, MAX_LETTERS).shuffled_file(random);
    assert_eq!(longest.len(), LONGEST);
    for (place, file) in faulty(&longest).iter().enumerate() {
        for room in [0, LONGEST - 1, LONGEST, LONGEST + 100] {
            let answer = compare(&FILE_WRITE, random, tally, "the longest file with a fault", file, room);
            if answer.number != 101 + place as u64 {
                let what = format!("the longest file with fault {}: second {}", place + 1, answer.number);
                tally.disagree(&what, &[]);
            }
        }
    }
}

/// A file with all records, spoilt so that refusals 1 to 5 come up.
fn faulty(file: &[u8]) -> [Vec<u8>; 5] {
    let (records, end) = file.split_at(file.len() - 2);
    let with_states = |states: u8| [&file[..2], &[states], &file[3..]].concat();
    [
        records.to_vec(),
        [file, &[0x41]].concat(),
        with_states(MAX_STATES as u8 + 1),
        with_states(MAX_STATES as u8 - 1),
        [records, &[0x41, 0x54, 0, 0, 0], end].concat(),
    ]
}
