//! Transitions as bytes and as two numbers, child count with label and the packed arguments. The pair's order is that
//! of transitions.

use crate::format::{ARGS_AT, ARITY_AT, HEAD_BYTES, MAX_ARITY, OUT_AT, WIDTH};

/// Label, child count, eight arguments and output.
pub type Transition = [u8; WIDTH];

pub fn transition_count(table: &[u8]) -> usize {
    256 * usize::from(table[201]) + usize::from(table[202])
}

pub fn transitions(table: &[u8]) -> &[Transition] {
    &table[HEAD_BYTES..].as_chunks().0[..transition_count(table)]
}

pub fn arguments(transition: &Transition) -> &[u8; MAX_ARITY] {
    let [_, _, _, arguments @ .., _] = transition;
    arguments
}

/// The arguments within the child count.
pub fn places(transition: &Transition) -> &[u8] {
    &transition[ARGS_AT..ARGS_AT + usize::from(transition[ARITY_AT])]
}

/// The greatest of the arguments, 0 if there is none.
pub fn top_of(transition: &Transition) -> u8 {
    arguments(transition).iter().fold(0, |top, &argument| top.max(argument))
}

pub fn out_of(transition: &Transition) -> usize {
    usize::from(transition[OUT_AT])
}

/// The label of a transition, or of a node of a listing.
pub fn label_of(bytes: &[u8]) -> u16 {
    u16::from_be_bytes([bytes[0], bytes[1]])
}

/// Child count and label as one number.
pub fn meta(label: u16, arity: u8) -> u64 {
    u64::from(arity) << 16 | u64::from(label)
}

pub fn meta_of(transition: &Transition) -> u64 {
    meta(label_of(transition), transition[ARITY_AT])
}

/// The eight arguments as one number, the first the highest byte.
pub fn args_of(transition: &Transition) -> u64 {
    u64::from_be_bytes(*arguments(transition))
}

pub fn arity_of(meta: u64) -> usize {
    (meta >> 16) as usize
}

/// The byte at place k of packed arguments.
pub fn byte_of(packed: u64, k: usize) -> usize {
    (packed >> (56 - 8 * k) & 255) as usize
}

/// A byte at place k, zeros at the others.
pub fn placed(byte: usize, k: usize) -> u64 {
    (byte as u64) << (56 - 8 * k)
}

/// Packed arguments with 0 at place k.
pub fn without(packed: u64, k: usize) -> u64 {
    packed - placed(byte_of(packed, k), k)
}

/// Packed arguments with each of the first bytes exchanged.
pub fn mapped(packed: u64, arity: usize, image: impl Fn(usize) -> usize) -> u64 {
    (0..arity).fold(0, |new, k| new | placed(image(byte_of(packed, k)), k))
}

/// The transition with this key, counted from 1; 0 if there is none.
pub fn seek(run: &[Transition], meta: u64, args: u64) -> usize {
    let (mut low, mut size) = (0, run.len());
    if size == 0 {
        return 0;
    }
    while size > 1 {
        let half = size / 2;
        let at = &run[low + half];
        let (m, a) = (meta_of(at), args_of(at));
        // No early exit, so the step has no branch to predict.
        if (m < meta) | ((m == meta) & (a <= args)) {
            low += half;
        }
        size -= half;
    }
    if (meta_of(&run[low]), args_of(&run[low])) == (meta, args) { low + 1 } else { 0 }
}

/// The output of a transition counted from 1; 0 for 0.
pub fn output(run: &[Transition], from_1: usize) -> usize {
    if from_1 == 0 { 0 } else { out_of(&run[from_1 - 1]) }
}
