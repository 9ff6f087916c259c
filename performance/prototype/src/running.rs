//! A listing run over a table, for ask.

use crate::format::{ARITY_AT, COUNT_AT, MAX_ARITY, MAX_NODES, NODE_BYTES, OUT_AT};
use crate::packed::{label_of, places, Transition};

/// What ask answers if nothing is refused.
pub fn answer(tree: &[u8], table: &[u8], run: &[Transition]) -> u64 {
    let (state, stop) = ran(tree, run);
    match state {
        0 => (stop as u64) << 16,
        _ if table[usize::from(state)] == 1 => 256,
        _ => 512,
    }
}

/// The state that the tree runs to, and the place of the node that stops it, counted from 1. Nodes are visited from
/// the last of the listing to the first, so the node noted last is the first that stops the tree.
fn ran(tree: &[u8], run: &[Transition]) -> (u8, usize) {
    let mut stack = [0; MAX_NODES];
    let (mut top, mut stop) = (MAX_NODES, 0);
    for (i, node) in tree.chunks_exact(NODE_BYTES).enumerate().rev() {
        let arity = usize::from(node[COUNT_AT]);
        let mut row = [0; MAX_ARITY];
        row[..arity].copy_from_slice(&stack[top..top + arity]);
        let states = &row[..arity];
        let mut state = 0;
        if !states.contains(&0) {
            state = find(run, label_of(node), states);
            if state == 0 {
                stop = i + 1;
            }
        }
        top = top + arity - 1;
        stack[top] = state;
    }
    (stack[top], stop)
}

/// The output of the first transition with this label and these arguments; 0 if there is none.
fn find(run: &[Transition], label: u16, states: &[u8]) -> u8 {
    let fits = |transition: &&Transition| {
        let arity = usize::from(transition[ARITY_AT]);
        label_of(*transition) == label && arity == states.len() && places(transition) == states
    };
    run.iter().find(fits).map_or(0, |transition| transition[OUT_AT])
}
