//! The automata that calls are measured on.

use differential::dice::Dice;
use reference::automaton::{Automaton, Key};
use std::collections::BTreeMap;

/// Leaves with these labels in state 1.
pub fn leaves(labels: &[u16]) -> BTreeMap<Key, u8> {
    labels.iter().map(|&label| (Key::new(label, vec![]), 1)).collect()
}

/// So many labels over all pairs of (1) and (2); one of them is P6.
pub fn pairs(labels: u16) -> Automaton {
    let mut transitions = leaves(&[1, 2]);
    transitions.extend((1..=labels).map(|label| (Key::new(label, vec![1, 1]), 2)));
    Automaton { accepting: vec![false, true], transitions }
}

/// The paper's example, P7.
pub fn example() -> Automaton {
    let over = |label, args: &[u8]| (Key::new(label, args.to_vec()), 3);
    let mut transitions = BTreeMap::from([(Key::new(1, vec![]), 1), (Key::new(2, vec![]), 2)]);
    transitions.extend([over(1, &[1, 1]), over(1, &[1, 2]), over(1, &[2, 1]), over(1, &[2, 2]), over(2, &[1, 2])]);
    Automaton { accepting: vec![false, false, true], transitions }
}

/// Each state under the next.
pub fn chain(states: u8) -> Automaton {
    let above = (1..states).map(|q| (Key::new(q.into(), vec![q]), q + 1));
    let transitions = std::iter::once((Key::new(1, vec![]), 1)).chain(above).collect();
    last_accepts(states, transitions)
}

fn last_accepts(states: u8, transitions: BTreeMap<Key, u8>) -> Automaton {
    Automaton { accepting: (1..=states).map(|q| q == states).collect(), transitions }
}

/// 200 states, each in eight places under the next, with lower states in the last place until there are 1,024
/// transitions.
pub fn wide_chain() -> Automaton {
    let mut transitions = leaves(&[1]);
    let places = |q: u8, last| Key::new(q.into(), vec![q, q, q, q, q, q, q, last]);
    let all = (0..199).flat_map(|below| (1 + below..200).map(move |q| (places(q, q - below), q + 1)));
    transitions.extend(all.take(1023));
    last_accepts(200, transitions)
}

/// 199 leaves, each beside itself and its next three in pairs that lead to one state; 1,024 transitions.
pub fn star() -> Automaton {
    let mut transitions: BTreeMap<Key, u8> = (1..200).map(|q| (Key::new(q.into(), vec![]), q)).collect();
    let near = (1..200).flat_map(|q| (q..(q + 4).min(200)).map(move |p| (Key::new(1, vec![q, p]), 200)));
    transitions.extend(near);
    let missing = 1024 - transitions.len();
    transitions.extend((1..200).map(|q| (Key::new(2, vec![q, q]), 200)).take(missing));
    last_accepts(200, transitions)
}

/// A chain over two leaves in one state, and labels that have each of its first 47 states in all places. A chain of 48
/// nodes over one leaf takes a state of its own at each step: as many pairs as there can be.
pub fn ladder(states: u8, places: usize, labels: u16) -> Automaton {
    let mut transitions = leaves(&[1, 255]);
    transitions.extend((1..states).map(|q| (Key::new(q.into(), vec![q]), q + 1)));
    let rungs = |label| (1..48).map(move |q| (Key::new(label, vec![q; places]), states));
    transitions.extend((1..=labels).flat_map(rungs));
    last_accepts(states, transitions)
}

/// So many labels over eight places, with two leaves in one state.
pub fn families(labels: u16) -> Automaton {
    let mut transitions = BTreeMap::from([(Key::new(1, vec![]), 1), (Key::new(2, vec![]), 1)]);
    transitions.extend((3..3 + labels).map(|label| (Key::new(label, vec![1; 8]), 2)));
    Automaton { accepting: vec![false, true], transitions }
}

/// A legal automaton with exactly these numbers: every state has a transition into it from lower ones, a use of its own
/// that tells it apart, and the rest of the transitions go from any states to any higher one.
pub fn mixed(states: u8, transitions: usize) -> Automaton {
    let mut dice = Dice::new(states.into());
    let mut lines = BTreeMap::new();
    let leaves = 2 + states / 8;
    for q in 1..=states {
        let args = if q <= leaves { vec![] } else { vec![1 + dice.roll(q as usize - 1) as u8, q - 1] };
        lines.insert(Key::new(if q <= leaves { q.into() } else { 60 }, args), q);
    }
    for q in 1..states {
        lines.insert(Key::new((100 + q % 100).into(), vec![q, 1 + q / 100]), states);
    }
    while lines.len() < transitions {
        let out = leaves + 1 + dice.roll((states - leaves) as usize) as u8;
        let args = (0..1 + dice.roll(3)).map(|_| 1 + dice.roll(out as usize - 1) as u8).collect();
        lines.entry(Key::new(70 + dice.roll(20) as u16, args)).or_insert(out);
    }
    let accepting = (1..=states).map(|q| q == states || q % 16 == 0).collect();
    Automaton { accepting, transitions: lines }.renumbered()
}
