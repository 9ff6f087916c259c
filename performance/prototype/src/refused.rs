//! Refusals 9 to 13 of a table that has failed a fast test: which of them it is, in no hurry.

use crate::alike::uses_agree;
use crate::format::{MAX_TRANSITIONS, NAMES};
use crate::packed::{out_of, places, transitions, Transition};
use crate::prints::all_prints;
use crate::ranks::unmarked;
use crate::rule::ruled;

/// The first of refusals 9 to 13, or 0. The table's fields fit and its transitions rise.
pub fn slow_refusal(table: &[u8]) -> u8 {
    let states = usize::from(table[0]);
    let classes = &table[1..=states];
    let run = transitions(table);
    let none = [0; NAMES];
    let mut approved = none;
    approved[1..=states].copy_from_slice(classes);
    if !all_marked(none, states, |marks| mark_accessible(run, marks)) {
        return 9;
    }
    if !all_marked(approved, states, |marks| mark_used(run, marks)) {
        return 10;
    }
    if !all_marked(none, states, |marks| mark_grounded(run, states, marks)) {
        return 11;
    }
    if some_alike(run, classes) {
        return 12;
    }
    if ruled(run, states, &mut [0; NAMES]).numbered { 0 } else { 13 }
}

/// Whether all states are marked after steps to the fixpoint.
fn all_marked(mut marks: [u8; NAMES], states: usize, step: impl Fn(&mut [u8; NAMES]) -> bool) -> bool {
    while step(&mut marks) {}
    marks[1..=states].iter().all(|&mark| mark != 0)
}

/// Marks outputs whose arguments are all marked. Whether a mark is new.
fn mark_accessible(run: &[Transition], marks: &mut [u8; NAMES]) -> bool {
    let mut changed = false;
    for transition in run {
        if marks[out_of(transition)] == 0 && unmarked(transition, marks) == 0 {
            marks[out_of(transition)] = 1;
            changed = true;
        }
    }
    changed
}

/// Marks arguments whose output is marked. Whether a mark is new.
fn mark_used(run: &[Transition], marks: &mut [u8; NAMES]) -> bool {
    let mut changed = false;
    for transition in run {
        if marks[out_of(transition)] != 0 {
            for &argument in places(transition) {
                changed |= marks[usize::from(argument)] == 0;
                marks[usize::from(argument)] = 1;
            }
        }
    }
    changed
}

/// Marks states all of whose transitions have all arguments marked. Whether a mark is new.
fn mark_grounded(run: &[Transition], states: usize, marks: &mut [u8; NAMES]) -> bool {
    let mut blocked = [false; NAMES];
    for transition in run {
        blocked[out_of(transition)] |= unmarked(transition, marks) != 0;
    }
    let mut changed = false;
    for q in 1..=states {
        if marks[q] == 0 && !blocked[q] {
            marks[q] = 1;
            changed = true;
        }
    }
    changed
}

fn some_alike(run: &[Transition], classes: &[u8]) -> bool {
    let mut prints = [0; NAMES];
    all_prints(classes, run, &mut prints);
    let skips = [0; MAX_TRANSITIONS];
    let states = classes.len();
    (1..=states)
        .any(|p| (p + 1..=states).any(|q| prints[p] == prints[q] && uses_agree(run, &skips, p, q)))
}
