//! Widths and limits of listings, tables and products.

pub const TABLE_BYTES: usize = 12_491;
pub const SCRATCH_BYTES: usize = 36_864;
pub const HEAD_BYTES: usize = 203;
/// A transition: label, of two bytes with the high one first, child count, arguments, output.
pub const WIDTH: usize = 12;
pub const ARITY_AT: usize = 2;
pub const ARGS_AT: usize = 3;
pub const OUT_AT: usize = 11;
/// A node of a listing: label and child count.
pub const NODE_BYTES: usize = 3;
pub const COUNT_AT: usize = 2;
pub const MAX_ARITY: usize = 8;
pub const MAX_STATES: usize = 200;
pub const MAX_TRANSITIONS: usize = 1_024;
pub const MAX_PRODUCT: u64 = 3_072;
pub const MAX_NODES: usize = 48;

/// States, and names of states and subtrees, are bytes; an array for each of them has this length.
pub const NAMES: usize = 256;
