//! Whether a subtree is equivalent to a state, to no state or to another subtree, decided on the table's uses.

use crate::format::{ARGS_AT, ARITY_AT, MAX_ARITY, MAX_NODES, MAX_TRANSITIONS, NAMES, OUT_AT};
use crate::packed::{args_of, meta_of, output, placed, Transition};
use crate::prints::CLASS;
use crate::slots::Slots;

/// What is known of a table while subtrees are named.
pub struct Known<'a> {
    pub run: &'a [Transition],
    pub states: usize,
    /// The number of pairs at each state, 1 for no state.
    pub counts: &'a [u8; NAMES],
    pub prints: &'a [u64; NAMES],
}

/// For each slot the transitions with the one and the other state in its gap, counted from 1; 0 for none.
struct Steps {
    with_p: [u16; MAX_NODES],
    with_q: [u16; MAX_NODES],
}

/// Whether a subtree at state p is equivalent to a subtree or a pair at state q, of the same class. The first `mine`
/// slots are those of the one, the others those of the other.
pub fn alike(known: &Known, slots: &Slots, mine: usize, p: usize, q: usize) -> bool {
    let Some(steps) = steps_of(known, slots, mine, p, q) else {
        return false;
    };
    p == q || rest_agrees(known, slots, mine, &steps, p, q)
}

/// The steps, if the one and the other have the same name in every slot.
fn steps_of(known: &Known, slots: &Slots, mine: usize, p: usize, q: usize) -> Option<Steps> {
    let mut steps = Steps { with_p: [0; MAX_NODES], with_q: [0; MAX_NODES] };
    let across = |c: usize, others, state| {
        let name = slots.names[c];
        if let Some(other) = slots.same(others, c) {
            return (name == slots.names[other]).then_some(slots.roots[other]);
        }
        // A name of a subtree's own is no state.
        if usize::from(name) > known.states {
            return None;
        }
        let root = if p == q { slots.roots[c] } else { slots.transition(known.run, c, state) as u16 };
        (usize::from(name) == output(known.run, usize::from(root))).then_some(root)
    };
    for c in 0..slots.count {
        if c < mine {
            steps.with_p[c] = slots.roots[c];
            steps.with_q[c] = across(c, mine..slots.count, q)?;
        } else {
            steps.with_q[c] = slots.roots[c];
            steps.with_p[c] = across(c, 0..mine, p)?;
        }
    }
    Some(steps)
}

/// Whether the uses of p and of q agree but for covered slots. In most cases the numbers of uses decide.
fn rest_agrees(known: &Known, slots: &Slots, mine: usize, steps: &Steps, p: usize, q: usize) -> bool {
    let (mut left_p, mut left_q) = (known.prints[p] % CLASS, known.prints[q] % CLASS);
    let mut covered = [false; MAX_NODES];
    for c in 0..slots.count {
        if !slots.is_first(c) || slots.is_lost(c) {
            continue;
        }
        let (a, b) = (usize::from(steps.with_p[c]), usize::from(steps.with_q[c]));
        if slots.covered(mine, known.counts, c) {
            covered[c] = true;
            left_p -= u64::from(a != 0);
            left_q -= u64::from(b != 0);
        } else if output(known.run, a) != output(known.run, b) {
            return false;
        }
    }
    left_p == left_q && (left_p == 0 || uses_agree(known.run, &skips_of(slots, &covered, steps), p, q))
}

/// For each transition a bit for each place that is in a covered slot.
fn skips_of(slots: &Slots, covered: &[bool; MAX_NODES], steps: &Steps) -> [u8; MAX_TRANSITIONS] {
    let mut skips = [0; MAX_TRANSITIONS];
    for c in (0..slots.count).filter(|&c| covered[c]) {
        for root in [steps.with_p[c], steps.with_q[c]] {
            if root != 0 {
                skips[usize::from(root) - 1] |= 1 << slots.gaps[c];
            }
        }
    }
    skips
}

/// Whether p and q have the same uses but for skipped places.
pub fn uses_agree(run: &[Transition], skips: &[u8; MAX_TRANSITIONS], p: usize, q: usize) -> bool {
    let mut from = 0;
    (0..MAX_ARITY).all(|k| {
        while from < run.len() && usize::from(run[from][ARITY_AT]) <= k {
            from += 1;
        }
        place_agrees(&run[from..], &skips[from..], k, p, q)
    })
}

/// The same at place k. The transitions with p there and those with q there rise in the same order, so they are walked
/// in step.
fn place_agrees(run: &[Transition], skips: &[u8], k: usize, p: usize, q: usize) -> bool {
    let mut j = 0;
    for i in 0..run.len() {
        if usize::from(run[i][ARGS_AT + k]) != p || skips[i] >> k & 1 != 0 {
            continue;
        }
        while j < run.len() && (usize::from(run[j][ARGS_AT + k]) != q || skips[j] >> k & 1 != 0) {
            j += 1;
        }
        if j == run.len() {
            return false;
        }
        let (one, other) = (&run[i], &run[j]);
        let others = (args_of(one) - placed(p, k), args_of(other) - placed(q, k));
        if others.0 != others.1 || meta_of(one) != meta_of(other) || one[OUT_AT] != other[OUT_AT] {
            return false;
        }
        j += 1;
    }
    true
}
