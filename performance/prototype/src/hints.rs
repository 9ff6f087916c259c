//! Hints: the transitions from which the new numbers are perhaps known.

use crate::format::{MAX_TRANSITIONS, NAMES};
use crate::open::{HINT, NODE};
use crate::packed::{out_of, top_of, Transition};

/// Marks the transitions that gave the states their numbers. A state whose transition is a subtree's perhaps gets its
/// number from another one, with arguments that have theirs early.
pub fn mark_hints(run: &[Transition], states: usize, firsts: &[u16; NAMES], marks: &mut [u8; MAX_TRANSITIONS]) {
    let mut loosened = [false; NAMES];
    let mut some = false;
    for state in 1..=states {
        if let Some(first) = usize::from(firsts[state]).checked_sub(1) {
            loosened[state] = marks[first] >= NODE;
            some |= loosened[state];
            marks[first] |= HINT;
        }
    }
    if some {
        mark_others(run, states, &loosened, marks);
    }
}

/// Marks, for each of these states, the transition of no subtree whose greatest argument is the least.
fn mark_others(run: &[Transition], states: usize, loosened: &[bool; NAMES], marks: &mut [u8; MAX_TRANSITIONS]) {
    let mut least = [255; NAMES];
    let mut best = [0u16; NAMES];
    for (i, transition) in run.iter().enumerate() {
        let out = out_of(transition);
        if loosened[out] && marks[i] < NODE {
            let top = top_of(transition);
            if top < least[out] {
                least[out] = top;
                best[out] = (i + 1) as u16;
            }
        }
    }
    for &transition in &best[1..=states] {
        if transition != 0 {
            marks[usize::from(transition) - 1] |= HINT;
        }
    }
}
