//! Refusals 7 and 8: the fields of a table, and the order of its transitions.

use crate::format::{ARITY_AT, HEAD_BYTES, MAX_ARITY, MAX_STATES, MAX_TRANSITIONS, OUT_AT, WIDTH};
use crate::packed::{args_of, arguments, label_of, meta_of, top_of, transition_count, transitions, Transition};

/// Whether every field is in its range and every byte is 0 that must be.
pub fn layout_fits(table: &[u8]) -> bool {
    let states = usize::from(table[0]);
    let count = transition_count(table);
    states <= MAX_STATES
        && at_most(&table[1..=states], 1)
        && at_most(&table[states + 1..=MAX_STATES], 0)
        && count <= MAX_TRANSITIONS
        && transitions(table).iter().all(|transition| fits(transition, table[0]))
        && at_most(&table[HEAD_BYTES + WIDTH * count..], 0)
}

/// No early exit, so the loop vectorises.
fn at_most(bytes: &[u8], bound: u8) -> bool {
    bytes.iter().fold(0, |top, &byte| top.max(byte)) <= bound
}

fn fits(transition: &Transition, states: u8) -> bool {
    let (label, arity, out) = (label_of(transition), transition[ARITY_AT], transition[OUT_AT]);
    usize::from(arity) <= MAX_ARITY
        && label != 0
        && out != 0
        && out <= states
        && top_of(transition) <= states
        && filled(transition) == arity
        && (arity == 8 || args_of(transition) << (8 * arity) == 0)
}

/// How many of the eight arguments are not 0.
fn filled(transition: &Transition) -> u8 {
    arguments(transition).iter().fold(0, |count, &argument| count + u8::from(argument != 0))
}

/// Whether the transitions are in strictly rising order.
pub fn rises(run: &[Transition]) -> bool {
    let Some((first, others)) = run.split_first() else {
        return true;
    };
    let (mut meta, mut args) = (meta_of(first), args_of(first));
    for transition in others {
        let (next_meta, next_args) = (meta_of(transition), args_of(transition));
        if next_meta < meta || (next_meta == meta && next_args <= args) {
            return false;
        }
        (meta, args) = (next_meta, next_args);
    }
    true
}
