//! A program without proofs that answers ask, intake, add and remove as the library does, byte for byte. It is the
//! yardstick for speed: what these calls cost in a program that is written to be fast and need not be proved.

mod alike;
mod change;
mod check;
mod format;
mod hints;
mod kept;
mod layout;
mod listing;
mod naming;
mod numbering;
mod open;
mod packed;
mod prints;
mod quotient;
mod ranks;
mod refused;
mod rule;
mod running;
mod slots;
mod sorting;
mod sought;
mod subtrees;
mod writing;

use check::{content_refusal, Notes};
use format::{SCRATCH_BYTES, TABLE_BYTES};
use listing::listing_refusal;
use packed::{transition_count, transitions};

/// Ask; the number that the C interface returns.
pub fn ask(tree: &[u8], table: &[u8]) -> u64 {
    match refusal_of(tree, table, None, &mut Notes::new()) {
        0 => running::answer(tree, table, transitions(table)),
        number => number,
    }
}

/// Intake; the number that the C interface returns.
pub fn intake(table: &[u8]) -> u64 {
    if table.len() != TABLE_BYTES {
        return 5;
    }
    match content_refusal(table, &mut Notes::new()) {
        0 => counts(usize::from(table[0]), transition_count(table)),
        number => u64::from(number),
    }
}

/// Add; the number that the C interface returns.
pub fn add(tree: &[u8], table: &mut [u8], scratch: &mut [u8]) -> u64 {
    changed(tree, table, scratch, true)
}

/// Remove; the number that the C interface returns.
pub fn remove(tree: &[u8], table: &mut [u8], scratch: &mut [u8]) -> u64 {
    changed(tree, table, scratch, false)
}

fn changed(tree: &[u8], table: &mut [u8], scratch: &mut [u8], inserting: bool) -> u64 {
    let mut notes = Notes::new();
    match refusal_of(tree, table, Some(scratch.len()), &mut notes) {
        0 => match change::change(tree, table, scratch, &notes, inserting) {
            Ok(new) => counts(new.states, new.transitions),
            Err(number) => u64::from(number),
        },
        number => number,
    }
}

/// The first of refusals 1 to 13, or 0. Ask has no scratch.
fn refusal_of(tree: &[u8], table: &[u8], scratch: Option<usize>, notes: &mut Notes) -> u64 {
    let broken = listing_refusal(tree);
    if broken != 0 {
        return u64::from(broken);
    }
    if table.len() != TABLE_BYTES {
        return 5;
    }
    if scratch.is_some_and(|length| length != SCRATCH_BYTES) {
        return 6;
    }
    u64::from(content_refusal(table, notes))
}

fn counts(states: usize, transitions: usize) -> u64 {
    (states as u64) << 16 | (transitions as u64) << 32
}
