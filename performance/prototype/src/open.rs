//! Which states are open: some tree that is no subtree runs to them.

use crate::format::{MAX_TRANSITIONS, NAMES};
use crate::packed::{byte_of, out_of, Transition};
use crate::subtrees::Subtrees;

/// Marks of a transition: one hint, and the number of subtrees that have it at their root.
pub const HINT: u8 = 1;
pub const NODE: u8 = 2;

/// How many subtrees run to each state, and to none; and the marks of transitions.
pub struct Places {
    pub at: [u8; NAMES],
    pub lost: u64,
    pub marks: [u8; MAX_TRANSITIONS],
}

pub fn places(subtrees: &Subtrees) -> Places {
    let mut places = Places { at: [0; NAMES], lost: 0, marks: [0; MAX_TRANSITIONS] };
    for j in 0..subtrees.count {
        match usize::from(subtrees.states[j]) {
            0 => places.lost += 1,
            state => {
                places.at[state] += 1;
                places.marks[usize::from(subtrees.roots[j]) - 1] += NODE;
            }
        }
    }
    places
}

pub fn open_states(run: &[Transition], states: usize, subtrees: &Subtrees, places: &Places) -> [u8; NAMES] {
    let mut open = [0; NAMES];
    let mut all = true;
    for q in 1..=states {
        open[q] = u8::from(places.at[q] == 0);
        all &= open[q] != 0;
    }
    if all {
        return open;
    }
    // A transition of no subtree opens its output.
    for (transition, &mark) in run.iter().zip(&places.marks) {
        if mark < NODE {
            open[out_of(transition)] = 1;
        }
    }
    while open_more(subtrees, places, &mut open) {}
    open
}

/// One round over the subtrees. Whether a state is newly open.
fn open_more(subtrees: &Subtrees, places: &Places, open: &mut [u8; NAMES]) -> bool {
    let mut changed = false;
    for j in 0..subtrees.count {
        let state = usize::from(subtrees.states[j]);
        if state != 0 && open[state] == 0 && opens(subtrees, places, open, j) {
            open[state] = 1;
            changed = true;
        }
    }
    changed
}

/// Whether the transition of subtree j has an open argument, or more choices of subtrees than subtrees.
fn opens(subtrees: &Subtrees, places: &Places, open: &[u8; NAMES], j: usize) -> bool {
    let arity = subtrees.arity(j);
    let args = subtrees.state_args(subtrees.children[j], arity);
    if (0..arity).any(|k| open[byte_of(args, k)] != 0) {
        return true;
    }
    let nodes = places.marks[usize::from(subtrees.roots[j]) - 1] / NODE;
    product_of(&places.at, args, arity) != u64::from(nodes)
}

/// The product of what an array has for packed arguments.
fn product_of(counts: &[u8; NAMES], args: u64, arity: usize) -> u64 {
    (0..arity).fold(1, |product, k| product * u64::from(counts[byte_of(args, k)]))
}
