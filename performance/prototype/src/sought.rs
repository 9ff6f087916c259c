//! The print that a state equivalent to a subtree must have.

use crate::alike::Known;
use crate::packed::output;
use crate::prints::use_value;
use crate::slots::Slots;

/// The print sought, from that of the subtree's state with the subtree's new class; None if no state can be
/// equivalent.
pub fn sought(known: &Known, slots: &Slots, start: u64) -> Option<u64> {
    let mut print = start;
    for c in 0..slots.count {
        let name = slots.names[c];
        if slots.is_lost(c) {
            if name != 0 {
                return None;
            }
            continue;
        }
        if !slots.is_first(c) {
            continue;
        }
        if (c + 1..slots.count).any(|i| slots.same_states(i, c) && slots.names[i] != name) {
            return None;
        }
        let before = output(known.run, usize::from(slots.roots[c]));
        if usize::from(name) != before {
            if !slots.covered(slots.count, known.counts, c) {
                return None;
            }
            let value = |out| use_value(slots.metas[c], slots.args[c], out);
            print = print.wrapping_add(value(usize::from(name))).wrapping_sub(value(before));
        }
    }
    Some(print)
}
