//! Refusals 1 to 4 of a listing.

use crate::format::{COUNT_AT, MAX_ARITY, MAX_NODES, NODE_BYTES};
use crate::packed::label_of;

/// The first of refusals 1 to 4, or 0.
pub fn listing_refusal(tree: &[u8]) -> u8 {
    if tree.len() < NODE_BYTES || tree.len() > NODE_BYTES * MAX_NODES || tree.len() % NODE_BYTES != 0 {
        return 1;
    }
    let (mut zero, mut many) = (false, false);
    for node in tree.chunks_exact(NODE_BYTES) {
        zero |= label_of(node) == 0;
        many |= usize::from(node[COUNT_AT]) > MAX_ARITY;
    }
    if zero {
        return 2;
    }
    if many {
        return 3;
    }
    if one_tree(tree) { 0 } else { 4 }
}

/// Whether the child counts make exactly one tree.
fn one_tree(tree: &[u8]) -> bool {
    let mut missing = 1;
    for node in tree.chunks_exact(NODE_BYTES) {
        if missing == 0 {
            return false;
        }
        missing = missing - 1 + usize::from(node[COUNT_AT]);
    }
    missing == 0
}
