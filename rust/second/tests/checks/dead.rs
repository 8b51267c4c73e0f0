//! Dead ends: against the definition, on all small automata.

use second::automaton::{least_member, members};
use second::dead::dead_states;

use crate::definitions;
use crate::random::Random;
use crate::worked::{all, f, g, h, idle, j, ring, window, Plain};

fn dead(automaton: &Plain) -> Vec<usize> {
    members(dead_states(&automaton.read())).collect()
}

#[test]
fn the_worked_automata_have_no_dead_states() {
    for automaton in [f(), g(), h(), j(), ring(32), idle(), window(12)] {
        assert_eq!(dead(&automaton), []);
    }
}

#[test]
fn a_state_without_an_accepting_loop_ahead_is_dead() {
    let mut automaton = j();
    automaton.accepting = vec![0];
    assert_eq!(dead(&automaton), [0, 1], "0 accepts and lies on no loop");
    automaton.transitions.push((1, 0, 0));
    assert_eq!(dead(&automaton), []);
}

#[test]
fn an_unreachable_state_is_never_dead() {
    let mut automaton = h();
    automaton.states = 3;
    automaton.transitions.push((1, 0, 2));
    assert_eq!(dead(&automaton), []);
    automaton.transitions.push((0, 0, 1));
    assert_eq!(dead(&automaton), [1, 2]);
}

#[test]
fn dead_states_are_those_of_the_definition() {
    let mut checked = 0;
    let sizes = [(1, 1), (2, 1), (3, 1), (1, 2), (2, 2)];
    for automaton in sizes.into_iter().flat_map(|(n, k)| all(n, k)) {
        assert_eq!(dead(&automaton), definitions::dead(&automaton), "{automaton:?}");
        checked += 1;
    }
    let mut random = Random::new("dead states", 0x5EED_0101);
    for _ in 0..10_000 {
        let (states, letters) = (1 + random.below(8), 1 + random.below(3));
        let automaton = random.automaton(states, letters, 1);
        assert_eq!(dead(&automaton), definitions::dead(&automaton), "{automaton:?}");
        checked += 1;
    }
    for _ in 0..100 {
        let automaton = random.automaton(32, 2, 1);
        assert_eq!(dead(&automaton), definitions::dead(&automaton), "{automaton:?}");
        checked += 1;
    }
    println!("{checked} automata");
}

#[test]
fn the_least_member_of_a_byte_is_its_lowest_set_bit() {
    assert_eq!(least_member(0), 8);
    for byte in 1..=255_u8 {
        let lowest = (0..8).find(|bit| byte >> bit & 1 == 1);
        assert_eq!(Some(least_member(byte)), lowest);
    }
}

#[test]
fn members_are_listed_lowest_first() {
    assert_eq!(members(0).collect::<Vec<_>>(), []);
    assert_eq!(members(0x8000_0011).collect::<Vec<_>>(), [0, 4, 31]);
    assert_eq!(members(u32::MAX).collect::<Vec<_>>(), (0..32).collect::<Vec<_>>());
}
