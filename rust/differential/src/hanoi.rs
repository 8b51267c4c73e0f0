//! Hanoi texts: the kernel against the second checker, and both against what drawn texts say.

use second::automaton::{MAX_LETTERS, MAX_STATES};

use crate::automata::{full, worked, Plain};
use crate::faults::{faulty, spoil_bytes, spoil_tokens};
use crate::formulas::{Formula, MAX_DEPTH};
use crate::random::Random;
use crate::tally::Tally;
use crate::texts::{spelt, Declared, Described, Role, Token};
use crate::writing::{compare, compare_known, draw_room, rooms, HANOI_WRITE, LONGEST};

/// Every outcome of hanoi_write: its kind, for a written file with 1 if the automaton has dead states.
pub const OUTCOMES: [(u64, u64); 7] = [(0, 0), (0, 1), (103, 0), (104, 0), (116, 0), (117, 0), (118, 0)];

/// Compares a call whose answer is known to be this refusal.
fn compare_refused(random: &mut Random, tally: &mut Tally, name: &str, text: &[u8], refused: u64) {
    let room = random.pick(&[0, 7, 100, 1000]);
    let answer = compare(&HANOI_WRITE, random, tally, name, text, room);
    if answer.number != refused {
        let what = format!("{name}: second {}, known {refused}", answer.number);
        tally.disagree(&what, &[("text", text)]);
    }
}

/// Drawn texts, each spelt in three ways, once with buffers of several lengths.
pub fn drawn_texts(tally: &mut Tally, seed: u64, cases: usize) {
    for case in 0..cases {
        let random = &mut Random::new(seed, case);
        let described = Described::drawn(random);
        let in_order = described.plain().file();
        let name = format!("text {case} of seed {seed:#x}");
        for spelling in 0..3 {
            let tokens = described.tokens(random);
            let text = spelt(random, &tokens);
            let rooms = rooms(random, in_order.len());
            let rooms = if spelling == 0 { &rooms[..] } else { &rooms[3..4] };
            for &room in rooms {
                compare_known(&HANOI_WRITE, random, tally, &name, [&text, &in_order], room);
            }
        }
    }
}

/// Drawn texts, each four times with faults of which the first is known.
pub fn faulty_texts(tally: &mut Tally, seed: u64, cases: usize) {
    for case in 0..cases {
        let random = &mut Random::new(seed, case);
        let described = Described::drawn(random);
        let whole = described.tokens(random);
        let name = format!("faulty text {case} of seed {seed:#x}");
        for _ in 0..4 {
            let (tokens, refused) = faulty(random, &described, &whole);
            let text = spelt(random, &tokens);
            compare_refused(random, tally, &name, &text, refused);
        }
    }
}

/// Drawn texts, each spoilt in four ways: once or a few times, in tokens, bytes or both.
pub fn spoilt_texts(tally: &mut Tally, seed: u64, cases: usize) {
    for case in 0..cases {
        let random = &mut Random::new(seed, case);
        let whole = Described::drawn(random).tokens(random);
        let name = format!("spoilt text {case} of seed {seed:#x}");
        for _ in 0..4 {
            let (in_tokens, in_bytes) = random.pick(&[(1, 0), (1, 0), (0, 1), (0, 1), (1, 1), (2, 0), (0, 2), (3, 3)]);
            let mut tokens = whole.clone();
            (0..in_tokens).for_each(|_| spoil_tokens(random, &mut tokens));
            let mut text = spelt(random, &tokens);
            (0..in_bytes).for_each(|_| spoil_bytes(random, &mut text));
            let room = draw_room(random, 40);
            compare(&HANOI_WRITE, random, tally, &name, &text, room);
        }
    }
}

/// Compares a text whose automaton is known, with more room than it needs.
fn compare_text(random: &mut Random, tally: &mut Tally, name: &str, text: &str, plain: &Plain) {
    let files = [text.as_bytes(), &plain.file()];
    compare_known(&HANOI_WRITE, random, tally, name, files, LONGEST);
}

/// Compares a text of one state and one edge, whose label is known to be true of these of two letters, or to be refused.
fn compare_label(random: &mut Random, tally: &mut Tally, name: &str, label: &str, letters: Option<[bool; 2]>) {
    let header = "HOA: v1 States: 1 Start: 0 AP: 1 \"a\" Acceptance: 1 Inf(0) --BODY--";
    let text = format!("{header} State: 0 [{label}] 0 --END--");
    match letters {
        None => compare_refused(random, tally, name, text.as_bytes(), 117),
        Some(letters) => {
            let mut plain = Plain::bare(1, 2, 0);
            plain.rows = letters.map(u32::from).to_vec();
            compare_text(random, tally, name, &text, &plain);
        }
    }
}

/// Every change of one byte or token of the texts of F and G.
pub fn worked_texts(tally: &mut Tally, seed: u64) {
    let random = &mut Random::new(seed, 0);
    for (name, plain) in worked().into_iter().take(2) {
        let tokens = Described::of_plain(&plain).tokens(random);
        let text = spelt(random, &tokens);
        compare_known(&HANOI_WRITE, random, tally, name, [&text, &plain.file()], LONGEST);
        change_bytes(random, tally, name, text.trim_ascii_end());
        change_tokens(random, tally, name, &tokens);
    }
}

/// Every truncation of a text, and every byte left out, doubled, or another.
fn change_bytes(random: &mut Random, tally: &mut Tally, name: &str, text: &[u8]) {
    for place in 0..text.len() {
        let (front, behind) = text.split_at(place);
        let name = format!("{name} changed at byte {place}");
        compare_refused(random, tally, &name, front, 117);
        for changed in [[front, &behind[1..]].concat(), [front, &behind[..1], behind].concat()] {
            let room = draw_room(random, 60);
            compare(&HANOI_WRITE, random, tally, &name, &changed, room);
        }
        for change in 1..=255 {
            let mut changed = text.to_vec();
            changed[place] ^= change;
            let room = draw_room(random, 60);
            compare(&HANOI_WRITE, random, tally, &name, &changed, room);
        }
    }
}

/// Every token left out, doubled, touching the one before, or exchanged with another one.
fn change_tokens(random: &mut Random, tally: &mut Tally, name: &str, tokens: &[Token]) {
    let mut ask = |what: &str, tokens: &[Token]| {
        let text = spelt(random, tokens);
        let room = draw_room(random, 60);
        compare(&HANOI_WRITE, random, tally, what, &text, room);
    };
    for place in 0..tokens.len() {
        let (front, behind) = tokens.split_at(place);
        let name = format!("{name} changed at token {place}");
        ask(&name, &[front, &behind[1..]].concat());
        ask(&name, &[front, &behind[..1], behind].concat());
        for other in 0..=place {
            let mut changed = tokens.to_vec();
            changed.swap(place, other);
            changed[place].touches = place == other;
            ask(&name, &changed);
        }
    }
}

/// Labels nested up to the limit and beyond it.
pub fn nested_labels(tally: &mut Tally, seed: u64) {
    let random = &mut Random::new(seed, 0);
    for depth in MAX_DEPTH - 2..=MAX_DEPTH + 2 {
        for case in 0..200 {
            let nots = case % (depth + 1);
            let mut openings = vec!["!"; nots];
            openings.resize(depth, "(");
            random.shuffle(&mut openings);
            let label = format!("{}0{}", openings.concat(), ")".repeat(depth - nots));
            let letters = [nots % 2 == 1, nots % 2 == 0];
            let known = (depth <= MAX_DEPTH).then_some(letters);
            compare_label(random, tally, &format!("{depth} deep"), &label, known);
        }
    }
}

/// Chains of many operands, and as many openings without an end.
pub fn long_labels(tally: &mut Tally, seed: u64) {
    let random = &mut Random::new(seed, 0);
    let chains = [
        ("0|", "f", [false, true]),
        ("!0&", "t", [true, false]),
        ("0&!0|", "t&0", [false, true]),
    ];
    for count in [1, 1000, 100_000] {
        for (part, last, letters) in chains {
            let label = part.repeat(count) + last;
            compare_label(random, tally, "a long chain", &label, Some(letters));
        }
        for part in ["(", "!", "!(", "(0&", "0|(", "0&!(", "[", "0)"] {
            let label = part.repeat(count.max(MAX_DEPTH + 1)) + "0";
            compare_label(random, tally, "openings without end", &label, None);
        }
    }
}

/// Numbers of many digits at every place that has one.
pub fn long_numbers(tally: &mut Tally, seed: u64) {
    let random = &mut Random::new(seed, 0);
    let described = Described {
        states: 3,
        start: 1,
        propositions: 2,
        declared: vec![Declared {
            state: 2,
            accepts: true,
            edges: vec![(Formula::Proposition(1), 0)],
        }],
    };
    let mut tokens = described.tokens(random);
    for place in 0..tokens.len() {
        let refused = match tokens[place].role {
            Role::States | Role::Start => 103,
            Role::State | Role::Target => 104,
            Role::Count => 118,
            _ if tokens[place].is_number() => 117,
            _ => continue,
        };
        let kept = tokens[place].bytes.clone();
        for digits in [3, 19, 20, 39, 1000, 100_000] {
            for (first, known) in [(b'1', refused), (b'9', refused), (b'0', 117)] {
                tokens[place].bytes = [&[first], vec![b'0'; digits - 1].as_slice()].concat();
                let text = spelt(random, &tokens);
                let name = format!("{digits} digits at token {place}");
                compare_refused(random, tally, &name, &text, known);
            }
        }
        tokens[place].bytes = kept;
    }
}

/// Texts of the longest file, with many edges, with long names and with much white space.
pub fn long_texts(tally: &mut Tally, seed: u64) {
    let random = &mut Random::new(seed, 0);
    let whole = full(MAX_STATES, MAX_LETTERS);
    let edges: String = (0..MAX_STATES).map(|to| format!("[0&1|!1|!0]{to}")).collect();
    let states = (0..MAX_STATES).map(|state| format!(" State: {state}{{0}}{edges}"));
    let states: String = states.collect();
    let text = |name: &str, white: &str, body: &str| {
        let names = format!("\"{name}\"").repeat(4);
        format!(
            "{white}HOA: v1 States: 32 Start: 0 AP: 4 {names} Acceptance: 1 Inf(0) --BODY--{white}{body}--END--{white}"
        )
    };
    let longest = text("a", "", &states);
    for room in rooms(random, LONGEST) {
        let files = [longest.as_bytes(), &whole.file()];
        compare_known(&HANOI_WRITE, random, tally, "the longest file", files, room);
    }
    let (name, white) = ("a long name ".repeat(20_000), " \n\t\r".repeat(50_000));
    let edges = states + &"[t]31[3]0".repeat(20_000);
    compare_text(random, tally, "long names", &text(&name, &white, &edges), &whole);
    let bare = Plain::bare(MAX_STATES, MAX_LETTERS, 0);
    compare_text(random, tally, "white space", &text(&name, &white, ""), &bare);
}
