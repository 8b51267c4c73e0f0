//! The lag-checking graph fits the archive's walks, and nothing else.

use edition::lag::Graph;
use edition::slots::{self, Slot};
use edition::{Automaton, Buffers, Outcome};

const F: &[u8] = include_bytes!("../../../examples/f.ba");
const G: &[u8] = include_bytes!("../../../examples/g.ba");

/// G in F: the archive's slots and word at this bound, and the number of edges of the graph after a change to them.
fn drawn(bound: u8, change: impl Fn(&mut Vec<Slot>, &mut Option<Vec<u8>>)) -> Option<usize> {
    let mut buffers = Buffers::largest();
    let (count, mut word) = match buffers.contain(G, F, bound.into()).expect("a walk") {
        Outcome::Contained { count } => (count, None),
        Outcome::Differs { count, word } => (count, Some(word.to_vec())),
    };
    let mut slots = slots::of_work(buffers.work(), count);
    change(&mut slots, &mut word);
    let pair = [
        &Automaton::from_file(G).expect("G"),
        &Automaton::from_file(F).expect("F"),
    ];
    Graph::of_walk(pair, bound, &slots, word.as_deref()).map(|graph| graph.edges.len())
}

#[test]
fn the_archives_walks_fit() {
    assert_eq!(drawn(0, |_, _| ()), Some(4));
    assert_eq!(drawn(1, |_, _| ()), Some(24));
}

#[test]
fn slots_and_words_that_the_archive_did_not_write_do_not_fit() {
    assert_eq!(drawn(0, |_, word| *word = Some(vec![1])), None);
    assert_eq!(drawn(0, |_, word| *word = Some(vec![0, 0])), None);
    assert_eq!(drawn(1, |_, word| *word = Some(vec![0])), None);
    assert_eq!(drawn(0, |slots, _| slots[0].counters[0] = 2), None);
    assert_eq!(drawn(1, |slots, _| slots[3].counters[1] = 1), None);
    assert_eq!(drawn(1, |slots, _| slots[3].parent = Some((0, 0))), None);
    assert_eq!(drawn(1, |slots, _| slots[3].parent = None), None);
    assert_eq!(drawn(1, |slots, _| slots.truncate(7)), None);
}

/// A parent that is the slot itself, comes after it or is not there, on the way back from the final vertex and elsewhere.
#[test]
fn parents_that_do_not_fall_do_not_fit() {
    for parent in [0, 1, 3, 8, u16::MAX] {
        assert_eq!(drawn(0, |slots, _| slots[0].parent = Some((parent, 0))), None);
    }
    for parent in [3, 4, 8, u16::MAX] {
        assert_eq!(drawn(1, |slots, _| slots[3].parent = Some((parent, 1))), None);
    }
}

#[test]
fn no_walk_has_no_vertex_or_a_bound_above_14() {
    let h = Automaton::from_file(include_bytes!("../../../examples/h.ba")).expect("H");
    assert_eq!(Graph::of_walk([&h, &h], 0, &[], None), None);
    assert_eq!(Graph::of_walk([&h, &h], 0, &[], Some(&[])), None);
    for bound in [15, u8::MAX] {
        assert_eq!(Graph::of_walk([&h, &h], bound, &[], Some(&[])), None);
    }
}
