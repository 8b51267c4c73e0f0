//! The document's definitions, carried out literally and slowly: runs are listed one by one, a lag is sought among all sets of
//! positions, the discovery list is built whole. Nothing here uses the checker.

use std::collections::BTreeSet;

use crate::worked::Plain;

/// All runs from a state on a word.
pub fn runs(automaton: &Plain, state: usize, word: &[u8]) -> Vec<Vec<usize>> {
    let mut runs = vec![vec![state]];
    for &letter in word {
        let mut longer = Vec::new();
        for run in &runs {
            for to in automaton.targets(run[run.len() - 1], letter.into()) {
                longer.push([run.as_slice(), &[to]].concat());
            }
        }
        runs = longer;
    }
    runs
}

/// All words with this many letters.
pub fn words(letters: usize, length: usize) -> Vec<Vec<u8>> {
    let mut words = vec![Vec::new()];
    for _ in 0..length {
        let longer = |word: &Vec<u8>| {
            let word = word.clone();
            (0..letters).map(move |letter| [word.as_slice(), &[letter as u8]].concat())
        };
        words = words.iter().flat_map(longer).collect();
    }
    words
}

/// Positions where a run is accepting, as bits.
pub fn visits(automaton: &Plain, run: &[usize]) -> u32 {
    let positions = 0..run.len();
    positions
        .filter(|&x| automaton.accepts_at(run[x]))
        .fold(0, |visits, x| visits | 1 << x)
}

/// The lag of two run prefixes with this many positions, given where each is accepting: of all choices of accepting positions of the
/// first run between which, ends included, the second one never accepts, the size of the largest.
pub fn lag(positions: usize, first: u32, second: u32) -> u32 {
    let fits = |chosen: &u32| {
        let lowest = chosen.trailing_zeros();
        let highest = 32 - chosen.leading_zeros();
        let within = (lowest..highest).all(|x| second >> x & 1 == 0);
        chosen & !first == 0 && within
    };
    let sets = 0..1_u32 << positions;
    sets.filter(fits).map(u32::count_ones).max().unwrap_or(0)
}

/// The visits of the first run since the second run was last accepting (the paper's psi): as the lag, but with the second run
/// not accepting from the first chosen position to the end.
pub fn pending(positions: usize, first: u32, second: u32) -> u32 {
    let since = (0..positions).rev().take_while(|x| second >> x & 1 == 0);
    since.filter(|x| first >> x & 1 == 1).count() as u32
}

/// Lags of all pairs of runs with up to a number of positions, computed once.
pub struct Lags {
    tables: Vec<Vec<u32>>,
}

impl Lags {
    pub fn new(positions: usize) -> Lags {
        let table = |positions: usize| {
            let patterns = 1_u32 << positions;
            (0..patterns)
                .flat_map(|first| (0..patterns).map(move |second| lag(positions, first, second)))
                .collect()
        };
        Lags {
            tables: (0..=positions).map(table).collect(),
        }
    }

    pub fn get(&self, positions: usize, first: u32, second: u32) -> u32 {
        self.tables[positions][(first as usize) << positions | second as usize]
    }

    /// Most positions of a run.
    pub fn positions(&self) -> usize {
        self.tables.len() - 1
    }
}

/// Has every run prefix of the left automaton on the word a run prefix of the right one with lag at most the bound?
pub fn contained_on(left: &Plain, right: &Plain, bound: u32, word: &[u8], lags: &Lags) -> bool {
    let patterns = |automaton: &Plain| -> BTreeSet<u32> {
        let runs = runs(automaton, automaton.initial, word);
        runs.iter().map(|run| visits(automaton, run)).collect()
    };
    let positions = word.len() + 1;
    let rights = patterns(right);
    patterns(left).iter().all(|&first| {
        let near = |&second: &u32| lags.get(positions, first, second) <= bound;
        rights.iter().any(near)
    })
}

/// Length of a shortest word, up to a limit, on which the left automaton is not contained in the right one.
pub fn shortest_difference(left: &Plain, right: &Plain, bound: u32, limit: usize, lags: &Lags) -> Option<usize> {
    let differs = |word: &Vec<u8>| !contained_on(left, right, bound, word, lags);
    (0..=limit).find(|&length| words(left.letters, length).iter().any(differs))
}

/// States that some run of zero or more steps reaches. Runs with as many steps as there are states reach them all.
fn reached(automaton: &Plain, state: usize) -> BTreeSet<usize> {
    let mut reached = BTreeSet::from([state]);
    for _ in 0..automaton.states {
        for &(from, _, to) in &automaton.transitions {
            if reached.contains(&from) {
                reached.insert(to);
            }
        }
    }
    reached
}

/// Can the state be reached from itself by at least one transition?
fn on_loop(automaton: &Plain, state: usize) -> bool {
    let leaving = automaton.transitions.iter().filter(|step| step.0 == state);
    leaving
        .into_iter()
        .any(|step| reached(automaton, step.2).contains(&state))
}

/// The dead states.
pub fn dead(automaton: &Plain) -> Vec<usize> {
    let saved = |&state: &usize| {
        let reached = reached(automaton, state);
        reached
            .iter()
            .any(|&q| automaton.accepts_at(q) && on_loop(automaton, q))
    };
    let reached = reached(automaton, automaton.initial);
    reached.into_iter().filter(|state| !saved(state)).collect()
}

/// Is the lasso word accepted? Some i, j and q are sought: as many copies as there are states are enough for i and for j, since
/// between copies a shortest run never meets a state twice.
pub fn accepts(automaton: &Plain, stem: &[u8], cycle: &[u8]) -> bool {
    let back_to = |q: usize| {
        (1..=automaton.states).any(|j| {
            let runs = runs(automaton, q, &cycle.repeat(j));
            let back = |run: &&Vec<usize>| run[run.len() - 1] == q;
            let meets = |run: &Vec<usize>| run.iter().any(|&state| automaton.accepts_at(state));
            runs.iter().filter(back).any(meets)
        })
    };
    (0..=automaton.states).any(|i| {
        let word = [stem, &cycle.repeat(i)].concat();
        let runs = runs(automaton, automaton.initial, &word);
        let ends: BTreeSet<usize> = runs.iter().map(|run| run[run.len() - 1]).collect();
        ends.into_iter().any(back_to)
    })
}

/// A listed vertex with the letter and the parent's place in the list.
#[derive(Clone, Debug, PartialEq, Eq)]
pub struct Listed {
    pub left: usize,
    pub counters: [u8; 32],
    pub letter: u8,
    pub parent: usize,
}

impl Listed {
    pub fn is_final(&self) -> bool {
        self.counters.iter().all(|&counter| counter == 0)
    }

    /// The vertex's slot.
    pub fn slot(&self) -> Vec<u8> {
        let mut slot = vec![self.left as u8];
        slot.extend(self.counters);
        slot.extend([self.letter, (self.parent % 256) as u8, (self.parent / 256) as u8]);
        slot.extend([0; 4]);
        slot
    }
}

/// The counters after a step, right state by right state.
fn step(right: &Plain, bound: u8, counters: &[u8; 32], letter: usize, target_accepts: bool) -> [u8; 32] {
    let mut stepped = [0; 32];
    for (r, counter) in stepped.iter_mut().enumerate().take(right.states) {
        let arriving = right.transitions.iter().filter(|step| step.1 == letter && step.2 == r);
        let mut from = arriving.map(|step| counters[step.0]);
        *counter = if right.accepts_at(r) {
            if from.any(|counter| counter > 0) {
                bound + 1
            } else {
                0
            }
        } else if target_accepts {
            from.map(|counter| counter.saturating_sub(1)).max().unwrap_or(0)
        } else {
            from.max().unwrap_or(0)
        };
    }
    stepped
}

/// The discovery list, cut after `limit` vertices. Its last vertex may be final, no other one is.
pub fn discovery(left: &Plain, right: &Plain, bound: u8, limit: usize) -> Vec<Listed> {
    let mut counters = [0; 32];
    let behind = left.accepts_at(left.initial) && !right.accepts_at(right.initial);
    counters[right.initial] = if behind { bound } else { bound + 1 };
    let initial = Listed {
        left: left.initial,
        counters,
        letter: 0xFF,
        parent: 0xFFFF,
    };
    let mut seen = BTreeSet::from([(initial.left, initial.counters)]);
    let mut list = vec![initial];
    let mut parent = 0;
    while parent < list.len() && !list[list.len() - 1].is_final() {
        let vertex = list[parent].clone();
        for letter in 0..left.letters {
            for target in left.targets(vertex.left, letter) {
                let accepts = left.accepts_at(target);
                let counters = step(right, bound, &vertex.counters, letter, accepts);
                if !seen.insert((target, counters)) {
                    continue;
                }
                list.push(Listed {
                    left: target,
                    counters,
                    letter: letter as u8,
                    parent,
                });
                if list.len() == limit || list[list.len() - 1].is_final() {
                    return list;
                }
            }
        }
        parent += 1;
    }
    list
}

/// The letters and left states on the way to a listed vertex.
pub fn way(list: &[Listed], place: usize) -> (Vec<u8>, Vec<usize>) {
    if place == 0 {
        return (Vec::new(), vec![list[0].left]);
    }
    let (mut word, mut states) = way(list, list[place].parent);
    word.push(list[place].letter);
    states.push(list[place].left);
    (word, states)
}

/// What the document says of a walk: its kind, count and word length, the work and the word afterwards.
#[derive(Debug, PartialEq, Eq)]
pub struct Expected {
    pub kind: u64,
    pub count: usize,
    pub length: usize,
    pub work: Vec<u8>,
    pub word: Vec<u8>,
}

/// The three cases of the walk and the word's rule, from the whole list.
pub fn walk(left: &Plain, right: &Plain, bound: u8, work: &[u8], word: &[u8]) -> Expected {
    let slots = (work.len() / 40).min(4096);
    let list = discovery(left, right, bound, 4200);
    let last = list.len() - 1;
    let mut expected = Expected {
        kind: 110,
        count: slots,
        length: 0,
        work: work.to_vec(),
        word: word.to_vec(),
    };
    let written = list.iter().take_while(|vertex| !vertex.is_final()).take(slots);
    for (slot, vertex) in written.enumerate() {
        expected.work[slot * 40..slot * 40 + 40].copy_from_slice(&vertex.slot());
    }
    if list[last].is_final() {
        if last <= slots {
            let (letters, _) = way(&list, last);
            expected.length = letters.len();
            if letters.len() <= word.len() {
                expected.kind = 1;
                expected.count = last;
                expected.word[..letters.len()].copy_from_slice(&letters);
            } else {
                expected.kind = 111;
                expected.count = 0;
            }
        }
    } else if list.len() <= slots {
        expected.kind = 0;
        expected.count = list.len();
    }
    expected
}

/// The fixed form: every state, and every from, letter and to, is looked at in turn.
pub fn written(automaton: &Plain) -> Vec<u8> {
    let (states, letters) = (automaton.states, automaton.letters);
    let mut file = vec![0x41, 0x48, states as u8, letters as u8, automaton.initial as u8];
    for q in 0..states {
        if automaton.accepts_at(q) {
            file.extend([0x41, 0x46, q as u8]);
        }
    }
    for q in 0..states {
        for a in 0..letters {
            for r in automaton.targets(q, a) {
                file.extend([0x41, 0x54, q as u8, a as u8, r as u8]);
            }
        }
    }
    file.extend([0x41, 0x45]);
    file
}
