//! Pictures in Graphviz's language.

use std::collections::{BTreeMap, HashSet};
use std::fmt::Write;

use edition::lag::{Edge, Graph, Vertex};
use edition::Automaton;

/// An automaton: accepting states doubled, dead states dashed and grey, an arrow to the initial state.
pub fn automaton(automaton: &Automaton) -> String {
    let dead = automaton.dead_states();
    let mut text = begun("automaton", &format!("start -> {}", automaton.initial()));
    for state in 0..automaton.states() {
        let shape = if automaton.accepts(state) {
            "doublecircle"
        } else {
            "circle"
        };
        let marked = match dead.contains(&state) {
            true => format!(", label=\"{state}\\ndead\", style=dashed, color=gray40, fontcolor=gray40"),
            false => String::new(),
        };
        line(&mut text, &format!("{state} [shape={shape}{marked}]"));
    }
    let edges = automaton.transitions().map(|(from, letter, to)| Edge {
        from: from.into(),
        letter,
        to: to.into(),
    });
    arrows(&mut text, edges, "");
    text + "}\n"
}

/// A lag-checking graph: each vertex with its place, its left state and the counters of the right-hand states; the final vertex
/// and the path to it set off.
pub fn graph(graph: &Graph, right_states: u8) -> String {
    let mut text = begun("walk", "start -> 0");
    let last = graph.vertices.len() - 1;
    for (place, vertex) in graph.vertices.iter().enumerate() {
        let marked = if graph.has_final && place == last {
            ", shape=octagon, color=red, penwidth=2"
        } else {
            ", shape=box"
        };
        line(
            &mut text,
            &format!("{place} [label=\"{}\"{marked}]", label(place, vertex, right_states)),
        );
    }
    let path: HashSet<&Edge> = graph.path.iter().collect();
    let others = graph.edges.iter().filter(|edge| !path.contains(edge)).copied();
    arrows(&mut text, others, "");
    arrows(
        &mut text,
        graph.path.iter().copied(),
        ", color=red, fontcolor=red, penwidth=2",
    );
    text + "}\n"
}

fn label(place: usize, vertex: &Vertex, right_states: u8) -> String {
    let counters: Vec<String> = vertex
        .counters
        .iter()
        .take(right_states.into())
        .map(u8::to_string)
        .collect();
    format!("{place}: state {}\\ncounters {}", vertex.state, counters.join(" "))
}

/// The beginning of a picture of this name, with an arrow from nowhere.
fn begun(name: &str, arrow: &str) -> String {
    let mut text = format!("digraph {name} {{\n");
    for part in [
        "rankdir=LR",
        "node [fontname=\"sans-serif\"]",
        "edge [fontname=\"sans-serif\"]",
        "start [shape=point]",
        arrow,
    ] {
        line(&mut text, part);
    }
    text
}

/// One arrow for each pair of ends, with the letters of its edges.
fn arrows(text: &mut String, edges: impl Iterator<Item = Edge>, marked: &str) {
    let mut letters: BTreeMap<(usize, usize), Vec<String>> = BTreeMap::new();
    for edge in edges {
        letters
            .entry((edge.from, edge.to))
            .or_default()
            .push(edge.letter.to_string());
    }
    for ((from, to), letters) in letters {
        line(
            text,
            &format!("{from} -> {to} [label=\"{}\"{marked}]", letters.join(",")),
        );
    }
}

fn line(text: &mut String, part: &str) {
    // Writing to a string does not fail.
    let _ = writeln!(text, "    {part};");
}
