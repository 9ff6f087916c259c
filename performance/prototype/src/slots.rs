//! Slots: the subtrees with one child cut out. A slot of subtrees has a slot of states below it.

use crate::format::{MAX_ARITY, MAX_NODES, NAMES};
use crate::packed::{arity_of, byte_of, placed, seek, without, Transition};
use crate::subtrees::Subtrees;
use std::ops::Range;

/// The edges into each subtree as lists. Edge 8 i + k, for child k of the subtree at i, is counted from 1.
pub struct Edges {
    first: [u16; MAX_NODES],
    next: [u16; MAX_ARITY * MAX_NODES],
}

impl Edges {
    pub fn of(subtrees: &Subtrees) -> Edges {
        let mut edges = Edges { first: [0; MAX_NODES], next: [0; MAX_ARITY * MAX_NODES] };
        for i in 0..subtrees.count {
            for k in 0..subtrees.arity(i) {
                let child = byte_of(subtrees.children[i], k) - 1;
                let edge = MAX_ARITY * i + k;
                edges.next[edge] = edges.first[child];
                edges.first[child] = (edge + 1) as u16;
            }
        }
        edges
    }

    /// The parents of the subtree at j, each with the place that the subtree has there.
    pub fn parents(&self, j: usize) -> impl Iterator<Item = (usize, usize)> + '_ {
        let mut at = usize::from(self.first[j]);
        std::iter::from_fn(move || {
            let edge = at.checked_sub(1)?;
            at = usize::from(self.next[edge]);
            Some((edge / MAX_ARITY, edge % MAX_ARITY))
        })
    }
}

/// The slots of one or two subtrees. All subtrees together have at most 47 children, and no two share one.
pub struct Slots {
    pub count: usize,
    pub metas: [u64; MAX_NODES],
    /// The other children: packed subtree numbers, and the states below them.
    children: [u64; MAX_NODES],
    pub args: [u64; MAX_NODES],
    pub gaps: [u8; MAX_NODES],
    /// The name of the subtree that fills the slot, and the transition at its root.
    pub names: [u8; MAX_NODES],
    pub roots: [u16; MAX_NODES],
}

impl Slots {
    pub fn none() -> Slots {
        Slots {
            count: 0,
            metas: [0; MAX_NODES],
            children: [0; MAX_NODES],
            args: [0; MAX_NODES],
            gaps: [0; MAX_NODES],
            names: [0; MAX_NODES],
            roots: [0; MAX_NODES],
        }
    }

    /// Adds the slots that the subtree at j stands in.
    pub fn add(&mut self, subtrees: &Subtrees, edges: &Edges, names: &[u8; MAX_NODES], j: usize) {
        for (i, k) in edges.parents(j) {
            let c = self.count;
            let meta = subtrees.metas[i];
            let others = without(subtrees.children[i], k);
            self.metas[c] = meta;
            self.children[c] = others;
            self.args[c] = subtrees.state_args(others, arity_of(meta));
            self.gaps[c] = k as u8;
            self.names[c] = names[i];
            self.roots[c] = subtrees.roots[i];
            self.count += 1;
        }
    }

    fn gap(&self, c: usize) -> usize {
        usize::from(self.gaps[c])
    }

    /// The first of these slots that is slot c.
    pub fn same(&self, mut among: Range<usize>, c: usize) -> Option<usize> {
        among.find(|&i| {
            self.children[i] == self.children[c] && self.metas[i] == self.metas[c] && self.gaps[i] == self.gaps[c]
        })
    }

    /// Whether slots i and c have the same slot of states below them.
    pub fn same_states(&self, i: usize, c: usize) -> bool {
        self.args[i] == self.args[c] && self.metas[i] == self.metas[c] && self.gaps[i] == self.gaps[c]
    }

    /// Whether c is the first slot over its slot of states.
    pub fn is_first(&self, c: usize) -> bool {
        !(0..c).any(|i| self.same_states(i, c))
    }

    /// Whether one of the other children runs to no state.
    pub fn is_lost(&self, c: usize) -> bool {
        (0..arity_of(self.metas[c])).any(|k| k != self.gap(c) && byte_of(self.args[c], k) == 0)
    }

    /// The transition with this state in the gap, counted from 1; 0 if there is none.
    pub fn transition(&self, run: &[Transition], c: usize, state: usize) -> usize {
        if state == 0 || self.is_lost(c) {
            return 0;
        }
        seek(run, self.metas[c], self.args[c] | placed(state, self.gap(c)))
    }

    /// Whether the slots have all that there can be over the slot of states below c. The first `mine` are of one
    /// subtree. `counts` has the number of pairs at each state.
    pub fn covered(&self, mine: usize, counts: &[u8; NAMES], c: usize) -> bool {
        let counted = |&i: &usize| self.same_states(i, c) && (i < mine || self.same(0..mine, i).is_none());
        let found = (0..self.count).filter(counted).count();
        let others = (0..arity_of(self.metas[c])).filter(|&k| k != self.gap(c));
        let all = others.fold(1, |product, k| product * u64::from(counts[byte_of(self.args[c], k)]));
        all == found as u64
    }
}
