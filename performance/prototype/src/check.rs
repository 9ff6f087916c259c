//! The check of a table: fast tests, and if one fails the slow way to its refusal.

use crate::format::NAMES;
use crate::layout::{layout_fits, rises};
use crate::packed::transitions;
use crate::prints::{all_differ, all_prints, all_used};
use crate::ranks::acyclic;
use crate::refused::slow_refusal;
use crate::rule::ruled;

/// What a change needs of a table and its check has found.
pub struct Notes {
    /// The print of each state, 0 for none.
    pub prints: [u64; NAMES],
    /// The transition, counted from 1, that gives each state its number.
    pub firsts: [u16; NAMES],
}

impl Notes {
    pub fn new() -> Notes {
        Notes { prints: [0; NAMES], firsts: [0; NAMES] }
    }
}

/// The first of refusals 7 to 13, or 0.
pub fn content_refusal(table: &[u8], notes: &mut Notes) -> u8 {
    if !layout_fits(table) {
        return 7;
    }
    let states = usize::from(table[0]);
    let run = transitions(table);
    if !rises(run) {
        return 8;
    }
    let order = ruled(run, states, &mut notes.firsts);
    if !order.numbered {
        return slow_refusal(table);
    }
    all_prints(&table[1..=states], run, &mut notes.prints);
    if !order.climbing && !acyclic(run, states) {
        return slow_refusal(table);
    }
    // Numbers by the rule are accessible; without loops a state is useful if it is of class 1 or used.
    let prints = &notes.prints[1..=states];
    if !all_used(prints) {
        return 10;
    }
    if all_differ(prints) { 0 } else { slow_refusal(table) }
}
