//! SPIN's automata beside the examples, for tests/peers/run.
//!
//!   peers spin FORMULA            prints a formula of examples/README.md in SPIN's notation
//!   peers same FILE CLAIM         ends with success if the never claim, read back, is the automaton of the file
//!   peers compare [FILE CLAIM]... compares each file with SPIN's claim for its formula, and prints a line for each pair and a sum
//!
//! Words are compared by the kernel's verdicts on two entries, and containment at a bound is the kernel's contain.

mod claim;
mod formula;

use std::env;
use std::fs;
use std::path::Path;
use std::process::exit;

use claim::Claim;
use edition::{Automaton, Buffers, Entry, Outcome, Refusal, MAX_BOUND};

fn main() {
    let words: Vec<String> = env::args().skip(1).collect();
    let words: Vec<&str> = words.iter().map(String::as_str).collect();
    let done = match &words[..] {
        ["spin", formula] => {
            println!("{}", formula::for_spin(formula));
            true
        }
        ["same", file, claim] => is_same(&read(file), &Claim::read(&read_text(claim))),
        ["compare", pairs @ ..] if pairs.len() % 2 == 0 => compare_all(pairs),
        _ => panic!("peers spin FORMULA | same FILE CLAIM | compare [FILE CLAIM]..."),
    };
    exit(i32::from(!done));
}

fn read(name: &str) -> Vec<u8> {
    fs::read(name).unwrap_or_else(|error| panic!("{name}: {error}"))
}

fn read_text(name: &str) -> String {
    String::from_utf8(read(name)).expect("a claim is text")
}

fn automaton(file: &[u8]) -> Automaton {
    Automaton::from_file(file).unwrap_or_else(|refusal| panic!("the file is refused: {refusal}"))
}

/// The automaton's file, of these states alone, which are numbered in this order; the initial state is the first of them.
fn file_of(automaton: &Automaton, states: &[u8]) -> Vec<u8> {
    let number = |state| states.iter().position(|&other| other == state).map(|place| place as u8);
    let mut bytes = vec![b'A', b'H', states.len() as u8, automaton.letters(), 0];
    bytes.extend(
        automaton
            .accepting()
            .filter_map(number)
            .flat_map(|state| [b'A', b'F', state]),
    );
    for (from, letter, to) in automaton.transitions() {
        if let (Some(from), Some(to)) = (number(from), number(to)) {
            bytes.extend([b'A', b'T', from, letter, to]);
        }
    }
    bytes.extend(b"AE");
    bytes
}

/// The states with the initial one first.
fn initial_first(automaton: &Automaton) -> Vec<u8> {
    let others = (0..automaton.states()).filter(|&state| state != automaton.initial());
    [automaton.initial()].into_iter().chain(others).collect()
}

fn is_same(file: &[u8], claim: &Claim) -> bool {
    let written = automaton(file);
    let renumbered = file_of(&written, &initial_first(&written));
    automaton(&renumbered) == automaton(&claim.file(written.letters()))
}

/// The automaton's file without its dead states. An initial state that is dead would leave nothing.
fn reaped(automaton: &Automaton) -> Vec<u8> {
    let dead = automaton.dead_states();
    assert!(!dead.contains(&automaton.initial()), "the automaton accepts no word");
    let states = initial_first(automaton);
    let alive: Vec<u8> = states.into_iter().filter(|state| !dead.contains(state)).collect();
    file_of(automaton, &alive)
}

/// Whether no pair differs on a word.
fn compare_all(pairs: &[&str]) -> bool {
    println!("example|states|SPIN's states|lasso words|accepted|differences|contained both ways");
    let mut sums = Sums::default();
    for pair in pairs.chunks(2) {
        let [name, claim] = [pair[0], pair[1]];
        let ours = read(name);
        let spins = Claim::read(&read_text(claim)).file(automaton(&ours).letters());
        compare(Path::new(name), &ours, &spins, &mut sums);
    }
    println!("{sums}");
    sums.pairs > 0 && sums.differences == 0
}

/// What is counted over all pairs. `at` has the pairs by their least bound, `dead` those that are refused with 6 as they stand.
#[derive(Default)]
struct Sums {
    pairs: usize,
    words: usize,
    differences: usize,
    at: [usize; MAX_BOUND as usize + 1],
    never: usize,
    dead: usize,
}

impl std::fmt::Display for Sums {
    fn fmt(&self, f: &mut std::fmt::Formatter<'_>) -> std::fmt::Result {
        let bounds = self.at.iter().enumerate().filter(|(_, &count)| count > 0);
        let at: Vec<String> = bounds
            .map(|(bound, count)| format!("{count} at bound {bound}"))
            .collect();
        write!(
            f,
            "{} pairs, {} lasso words, {} differences; contained both ways: {}, {} at no bound; refused with 6 as they stand: {}",
            self.pairs,
            self.words,
            self.differences,
            at.join(", "),
            self.never,
            self.dead
        )
    }
}

/// Compares our file with SPIN's and prints the pair's line.
fn compare(name: &Path, ours: &[u8], spins: &[u8], sums: &mut Sums) {
    let shown = automaton(spins);
    let dead = shown.dead_states().len();
    let alive = if dead == 0 { spins.to_vec() } else { reaped(&shown) };
    if dead > 0 {
        let refused = Buffers::largest().contain(ours, spins, 0).map(drop);
        assert!(matches!(refused, Err(Refusal::Dead { .. })), "{refused:?}");
        sums.dead += 1;
    }
    let (words, accepted, differences) = verdicts(&opened(ours), &opened(&alive));
    let (bound, note) = contained(ours, &alive);
    match bound {
        Some(bound) => sums.at[usize::from(bound)] += 1,
        None => sums.never += 1,
    }
    sums.pairs += 1;
    sums.words += words;
    sums.differences += differences;
    let reaped = if dead == 0 {
        "".into()
    } else {
        format!(", {dead} dead (removed here; refused with 6 as it stands)")
    };
    println!(
        "{}|{}|{}{reaped}|{words}|{accepted}|{differences}|{note}",
        name.file_name().unwrap_or_default().to_string_lossy(),
        automaton(ours).states(),
        shown.states()
    );
}

fn opened(file: &[u8]) -> Entry {
    let mut entry = Entry::fresh();
    entry
        .open(file)
        .unwrap_or_else(|refusal| panic!("the entry is not opened: {refusal}"));
    entry
}

/// How many lasso words were tried, how many the first entry accepts, and on how many the two differ. Stems have up to `most` letters, and
/// loops 1 to `most`: fewer, the more letters there are.
fn verdicts(first: &Entry, second: &Entry) -> (usize, usize, usize) {
    let letters = first.held().map_or(0, |held| held.automaton.letters());
    let most = [0, 4, 4, 3, 3, 2, 2, 2, 2][usize::from(letters)];
    let (mut words, mut accepted, mut differences) = (0, 0, 0);
    for (stem, cycle) in (0..=most).flat_map(|stem| (1..=most).map(move |cycle| (stem, cycle))) {
        for word in all_words(letters, stem + cycle) {
            let verdict = |entry: &Entry| {
                entry
                    .verdict(&word[..stem], &word[stem..])
                    .expect("the word is in range")
            };
            words += 1;
            accepted += usize::from(verdict(first));
            differences += usize::from(verdict(first) != verdict(second));
        }
    }
    (words, accepted, differences)
}

/// All words of this length.
fn all_words(letters: u8, length: usize) -> impl Iterator<Item = Vec<u8>> {
    let base = usize::from(letters);
    (0..base.pow(length as u32)).map(move |number| {
        let digits = (0..length).map(|place| number / base.pow(place as u32) % base);
        digits.map(|digit| digit as u8).collect()
    })
}

/// The least bound at which each is contained in the other, and what is to be said of the pair.
fn contained(ours: &[u8], spins: &[u8]) -> (Option<u8>, String) {
    for bound in 0..=MAX_BOUND {
        if differing(ours, spins, bound).is_none() && differing(spins, ours, bound).is_none() {
            return (Some(bound), format!("at bound {bound}"));
        }
    }
    let pairs = [
        ("the example in SPIN's", [ours, spins]),
        ("SPIN's in the example", [spins, ours]),
    ];
    let found =
        pairs.map(|(what, [left, right])| differing(left, right, MAX_BOUND).map(|word| format!("{what}: word{word}")));
    let ways: Vec<String> = found.into_iter().flatten().collect();
    (None, format!("at no bound: {} at {MAX_BOUND}", ways.join("; ")))
}

/// The word that shows that the left is not contained in the right at the bound, its letters after single spaces.
fn differing(left: &[u8], right: &[u8], bound: u8) -> Option<String> {
    match Buffers::largest().contain(left, right, bound.into()) {
        Ok(Outcome::Contained { .. }) => None,
        Ok(Outcome::Differs { word, .. }) => Some(word.iter().map(|letter| format!(" {letter}")).collect()),
        Err(refusal) => panic!("contain is refused: {refusal}"),
    }
}
