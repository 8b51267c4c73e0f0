//! The lag-checking graph of a walk, for pictures only: the archive has made the walk and decided.
//!
//! The vertices are the slots that the archive wrote. The edges, and the final vertex, which takes no slot, are computed here by
//! document 01's step; where they do not fit the archive's slots and word, there is no graph.

use std::collections::HashMap;

use crate::slots::{Slot, COUNTERS};
use crate::{Automaton, MAX_BOUND};

/// A left state and the counters of the right-hand states.
#[derive(Clone, Copy, Debug, PartialEq, Eq, Hash)]
pub struct Vertex {
    /// The left state.
    pub state: u8,
    /// The counters of the right-hand states.
    pub counters: [u8; COUNTERS],
}

/// An edge between places of the discovery list.
#[derive(Clone, Copy, Debug, PartialEq, Eq, Hash)]
pub struct Edge {
    /// The place of the vertex that the step leaves.
    pub from: usize,
    /// The letter of the step.
    pub letter: u8,
    /// The place of the vertex that the step reaches.
    pub to: usize,
}

/// The graph: at least one listed vertex, a final one last, and the edges between them. Edges to vertices that were not listed, since
/// the walk had ended, are left out.
///
/// ```
/// use edition::lag::Graph;
/// use edition::{slots, Automaton, Buffers, Outcome};
///
/// let h = b"AH\x01\x01\x00AF\x00AT\x00\x00\x00AE";
/// let j = b"AH\x02\x01\x00AF\x01AT\x00\x00\x01AT\x01\x00\x01AE";
/// let mut buffers = Buffers::largest();
/// assert_eq!(buffers.contain(h, j, 1), Ok(Outcome::Contained { count: 2 }));
///
/// let pair = [&Automaton::from_file(h)?, &Automaton::from_file(j)?];
/// let graph = Graph::of_walk(pair, 1, &slots::of_work(buffers.work(), 2), None).expect("the graph fits");
/// assert_eq!(graph.edges.iter().map(|edge| (edge.from, edge.to)).collect::<Vec<_>>(), [(0, 1), (1, 1)]);
/// # Ok::<(), edition::Refusal>(())
/// ```
#[derive(Clone, Debug, PartialEq, Eq)]
pub struct Graph {
    /// The vertices in the order of the discovery list.
    pub vertices: Vec<Vertex>,
    /// The edges between them, in the order in which the walk takes its steps.
    pub edges: Vec<Edge>,
    /// The edges from the initial vertex to the final one, where the walk found one.
    pub path: Vec<Edge>,
    /// Whether the last vertex is final.
    pub has_final: bool,
}

impl Graph {
    /// The graph of a walk of the left automaton in the right one at a bound, which wrote these slots and gave this word.
    ///
    /// `None` if the slots or the word are not those of such a walk.
    pub fn of_walk([left, right]: [&Automaton; 2], bound: u8, slots: &[Slot], word: Option<&[u8]>) -> Option<Graph> {
        let pair = Pair { left, right, bound };
        let mut vertices: Vec<Vertex> = slots.iter().map(Vertex::of_slot).collect();
        if bound > MAX_BOUND || !fits(&pair, &vertices, slots) {
            return None;
        }
        let path = match word {
            Some(word) => final_path(&pair, &mut vertices, slots, word)?,
            None => Vec::new(),
        };
        let edges = edges(&pair, &vertices, slots.len(), word.is_none())?;
        (!vertices.is_empty()).then_some(Graph {
            vertices,
            edges,
            path,
            has_final: word.is_some(),
        })
    }
}

/// The two automata and the bound of a walk.
struct Pair<'a> {
    left: &'a Automaton,
    right: &'a Automaton,
    bound: u8,
}

impl Pair<'_> {
    /// The initial vertex.
    fn initial(&self) -> Vertex {
        let (state, right) = (self.left.initial(), self.right.initial());
        let mut counters = [0; COUNTERS];
        let behind = self.left.accepts(state) && !self.right.accepts(right);
        counters[usize::from(right)] = self.bound + u8::from(!behind);
        Vertex { state, counters }
    }

    /// The steps from the vertex: letters upwards, left targets upwards.
    fn steps(&self, vertex: Vertex) -> impl Iterator<Item = (u8, Vertex)> + '_ {
        (0..self.left.letters()).flat_map(move |letter| {
            let largest = self.largest(&vertex, letter);
            let targets = self.left.targets(vertex.state, letter);
            targets.map(move |state| (letter, self.stepped(&largest, state)))
        })
    }

    /// For each right-hand state the largest counter of its predecessors on the letter, 0 if it has none.
    fn largest(&self, vertex: &Vertex, letter: u8) -> [u8; COUNTERS] {
        let mut largest = [0; COUNTERS];
        let sources = 0..self.right.states();
        for (from, to) in sources.flat_map(|from| self.right.targets(from, letter).map(move |to| (from, to))) {
            let counter = vertex.counters[usize::from(from)];
            largest[usize::from(to)] = counter.max(largest[usize::from(to)]);
        }
        largest
    }

    /// The vertex after a step to the left state.
    fn stepped(&self, largest: &[u8; COUNTERS], state: u8) -> Vertex {
        let lowered = u8::from(self.left.accepts(state));
        let counter = |right: usize| match largest[right] {
            0 => 0,
            _ if self.right.accepts(right as u8) => self.bound + 1,
            counter => counter - lowered,
        };
        Vertex {
            state,
            counters: std::array::from_fn(counter),
        }
    }
}

impl Vertex {
    fn of_slot(slot: &Slot) -> Vertex {
        Vertex {
            state: slot.state,
            counters: slot.counters,
        }
    }

    fn is_final(&self) -> bool {
        self.counters == [0; COUNTERS]
    }
}

/// Whether the listed vertices begin with the initial one, and each other has a parent before it with a step to it.
fn fits(pair: &Pair, vertices: &[Vertex], slots: &[Slot]) -> bool {
    let mut places = slots.iter().enumerate();
    let begins = places
        .next()
        .is_none_or(|(_, slot)| slot.parent.is_none() && vertices[0] == pair.initial());
    begins && places.all(|(to, slot)| has_parent(pair, vertices, to, slot))
}

/// Whether the slot's parent comes before it and has a step to it, by the slot's letter.
fn has_parent(pair: &Pair, vertices: &[Vertex], to: usize, slot: &Slot) -> bool {
    slot.parent.is_some_and(|(parent, letter)| {
        let parent = usize::from(parent);
        parent < to && pair.steps(vertices[parent]).any(|step| step == (letter, vertices[to]))
    })
}

/// The edges between the vertices, from the first `listed` of them. `None` if the list is `complete` and a step leaves it.
fn edges(pair: &Pair, vertices: &[Vertex], listed: usize, complete: bool) -> Option<Vec<Edge>> {
    let numbered = vertices.iter().enumerate();
    let places: HashMap<Vertex, usize> = numbered.map(|(place, &vertex)| (vertex, place)).collect();
    let mut edges = Vec::new();
    for (from, letter, vertex) in all_steps(pair, &vertices[..listed]) {
        match places.get(&vertex) {
            Some(&to) => edges.push(Edge { from, letter, to }),
            None if complete => return None,
            None => (),
        }
    }
    Some(edges)
}

/// The steps from every vertex in order: its place, the letter and the vertex after it.
fn all_steps<'a>(pair: &'a Pair, vertices: &'a [Vertex]) -> impl Iterator<Item = (usize, u8, Vertex)> + 'a {
    let places = vertices.iter().enumerate();
    places.flat_map(|(from, &vertex)| pair.steps(vertex).map(move |(letter, to)| (from, letter, to)))
}

/// Appends the final vertex and gives the path to it. `None` if no step leads to one, or the path's letters are not the word.
fn final_path(pair: &Pair, vertices: &mut Vec<Vertex>, slots: &[Slot], word: &[u8]) -> Option<Vec<Edge>> {
    if slots.is_empty() {
        vertices.push(pair.initial());
        return (pair.initial().is_final() && word.is_empty()).then(Vec::new);
    }
    let (from, letter, last) = all_steps(pair, vertices).find(|(_, _, vertex)| vertex.is_final())?;
    vertices.push(last);
    let to = slots.len();
    let mut path = vec![Edge { from, letter, to }];
    let mut to = from;
    while let Some((parent, letter)) = slots[to].parent {
        let from = usize::from(parent);
        path.push(Edge { from, letter, to });
        to = from;
    }
    path.reverse();
    let letters = path.iter().map(|edge| edge.letter);
    letters.eq(word.iter().copied()).then_some(path)
}
