//! Hanoi texts with faults: some with one that is known, others spoilt in any way.

use second::automaton::MAX_STATES;

use crate::random::Random;
use crate::texts::{would_touch, Described, Role, Token, MAX_PROPOSITIONS};

/// What stands nowhere in a text, and begins with no token.
const STRANGE: [&[u8]; 12] = [
    b"@a",
    b"\0",
    b"\x0b",
    b"\xff",
    b"x",
    b"name:",
    b"properties:",
    b"--ABORT--",
    b"/* */",
    b"State",
    b"\"\n",
    b"\\",
];

/// Tokens, and what is nearly one.
const SPARE: &str =
    "HOA: v1 States: Start: AP: acc-name: Buchi Acceptance: Inf --BODY-- State: --END-- t f ! & | ( ) { } [ ] \
    0 1 2 4 5 31 32 33 00 01 \"\" \"a\" \"a HOA : v -- !! && (0) [t] {0}";

/// Digits of a number above all limits: a power of ten, any, or one whose last bits are those of the value.
fn draw_huge(random: &mut Random, value: usize) -> String {
    let bits = random.pick(&[8, 16, 32, 64, 65]);
    match random.below(4) {
        0 => format!("1{}", "0".repeat(random.between(2, 40))),
        1 => (0..random.between(3, 30))
            .map(|_| random.between(1, 9).to_string())
            .collect(),
        _ => ((1_u128 << bits) + value as u128).to_string(),
    }
}

/// A number from the limit on.
fn draw_outside(random: &mut Random, limit: usize) -> String {
    let value = random.below(limit + 1);
    match random.below(3) {
        0 => limit.to_string(),
        1 => (limit + value).to_string(),
        _ => draw_huge(random, value),
    }
}

/// Makes a fault of the token at the place, and gives the answer of the text if the fault is the first one.
fn put_fault(random: &mut Random, described: &Described, tokens: &mut Vec<Token>, place: usize) -> u64 {
    let needs_white = place > 0 && would_touch(&tokens[place - 1].bytes, &tokens[place].bytes);
    if needs_white && random.chance(1, 2) {
        tokens[place].touches = true;
        return 117;
    }
    let token = &mut tokens[place];
    if token.role == Role::Other || random.chance(1, 4) {
        match token.is_number() && random.chance(1, 2) {
            true => token.bytes.insert(0, b'0'),
            false => tokens.insert(place, Token::new(random.pick(&STRANGE), Role::Other)),
        }
        return 117;
    }
    put_value(random, described, tokens, place)
}

/// Puts a number outside its range at the place.
fn put_value(random: &mut Random, described: &Described, tokens: &mut [Token], place: usize) -> u64 {
    let (front, behind) = tokens.split_at_mut(place);
    let (limit, answer) = match behind[0].role {
        Role::States if random.chance(1, 3) => (0, 103),
        Role::States => (MAX_STATES + 1, 103),
        Role::Start => (described.states, 103),
        Role::Count => (MAX_PROPOSITIONS + 1, 118),
        Role::Proposition => (described.propositions, 117),
        _ => (described.states, 104),
    };
    let earlier = front.iter().rev().find(|token| token.role == Role::State);
    match earlier.filter(|_| behind[0].role == Role::State && random.chance(1, 3)) {
        Some(state) => {
            behind[0].bytes = state.bytes.clone();
            return 117;
        }
        None if limit == 0 => behind[0].bytes = b"0".to_vec(),
        None => behind[0].bytes = draw_outside(random, limit).into_bytes(),
    }
    if let Some(next) = behind.get_mut(1) {
        next.touches = !next.is_number() && random.chance(1, 2);
    }
    answer
}

/// The tokens of what is described, with one to four faults, and the answer that the first one comes to.
pub fn faulty(random: &mut Random, described: &Described, whole: &[Token]) -> (Vec<Token>, u64) {
    let mut tokens = whole.to_vec();
    let mut places: Vec<usize> = (0..random.between(1, 3)).map(|_| random.below(tokens.len())).collect();
    if random.chance(1, 3) {
        places.push(random.pick(&[3, 5, 7]));
    }
    places.sort_unstable();
    places.dedup();
    let mut answer = 0;
    for place in places.into_iter().rev() {
        answer = put_fault(random, described, &mut tokens, place);
    }
    (tokens, answer)
}

/// Spoils the tokens a little: one swapped, left out, doubled, or another in its place or before it.
pub fn spoil_tokens(random: &mut Random, tokens: &mut Vec<Token>) {
    if tokens.is_empty() {
        return;
    }
    let place = random.below(tokens.len());
    let other = match random.chance(1, 2) {
        true => (place + 1) % tokens.len(),
        false => random.below(tokens.len()),
    };
    let spare: Vec<&str> = SPARE.split_whitespace().collect();
    match random.below(8) {
        0 => tokens.swap(place, other),
        1 => {
            tokens.remove(place);
        }
        2 => tokens.insert(place, tokens[place].clone()),
        3 => tokens.insert(other, tokens[place].clone()),
        4 => tokens[place].bytes = random.pick(&spare).as_bytes().to_vec(),
        5 => tokens.insert(place, Token::new(random.pick(&spare), Role::Other)),
        6 => tokens[place].touches = true,
        _ => spoil_number(random, tokens),
    }
}

/// Makes a number long, another, or one with leading zeros.
fn spoil_number(random: &mut Random, tokens: &mut [Token]) {
    let numbers: Vec<usize> = (0..tokens.len()).filter(|&place| tokens[place].is_number()).collect();
    let Some(&place) = numbers.get(random.below(numbers.len().max(1))) else {
        return;
    };
    let bytes = &mut tokens[place].bytes;
    let value = random.below(6);
    match random.below(5) {
        0 => bytes.insert(0, b'0'),
        1 => bytes.push(random.between(0x30, 0x39) as u8),
        2 => *bytes = random.below(36).to_string().into_bytes(),
        3 => *bytes = draw_huge(random, value).into_bytes(),
        _ => bytes.resize(random.between(1, 40), random.between(0x30, 0x39) as u8),
    }
}

/// Spoils the bytes a little.
pub fn spoil_bytes(random: &mut Random, text: &mut Vec<u8>) {
    if text.is_empty() {
        return;
    }
    let place = random.below(text.len());
    let common = b" \n\t\r0123459!&|()[]{}\":-tf\\\0ASv";
    let byte = if random.chance(1, 2) {
        random.pick(common)
    } else {
        random.byte()
    };
    match random.below(8) {
        0 => {
            text.remove(place);
        }
        1 => text.insert(place, text[place]),
        2 | 3 => text[place] = byte,
        4 => text[place] ^= 1 << random.below(8),
        5 => text.insert(place, byte),
        6 => text.truncate(place),
        _ => text.push(byte),
    }
}
