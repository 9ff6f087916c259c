//! Tables of before order 5, with labels of one byte: what the host makes into tables of today.

use crate::automaton::Automaton;
use crate::table::{accepted, encode_with, fields};

pub const TABLE_BYTES: usize = 11_467;
pub const SCRATCH_BYTES: usize = 33_792;
const LABEL_BYTES: usize = 1;

/// The automaton that an old table holds, or the number of the first condition that the table breaks.
pub fn intake(table: &[u8]) -> Result<Automaton, u8> {
    if table.len() != TABLE_BYTES {
        return Err(5);
    }
    accepted(fields(table, LABEL_BYTES)?)
}

/// The old table of an automaton that fits one; none if a label is above 255.
pub fn encode(automaton: &Automaton) -> Option<Vec<u8>> {
    let narrow = automaton.transitions.keys().all(|key| key.label < 256);
    narrow.then(|| encode_with(automaton, LABEL_BYTES))
}
