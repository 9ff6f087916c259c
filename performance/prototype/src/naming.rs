//! Names of the subtrees, parents before children. Subtrees with one name are equivalent after the change: 0 for a
//! subtree that occurs in no tree, q for one equivalent to the other trees of open state q, and n + j for subtree j,
//! counted from 1, and those like it.

use crate::alike::{alike, Known};
use crate::format::{MAX_NODES, NAMES};
use crate::prints::CLASS;
use crate::slots::{Edges, Slots};
use crate::sought::sought;
use crate::subtrees::Subtrees;

struct Naming<'a> {
    known: &'a Known<'a>,
    subtrees: &'a Subtrees,
    /// The class of each subtree after the change.
    classes: [u8; MAX_NODES],
    open: &'a [u8; NAMES],
    edges: Edges,
    slots: Slots,
    names: [u8; MAX_NODES],
    /// How many subtrees have the own name of the subtree at j.
    sizes: [u8; MAX_NODES],
    /// The subtrees with own names, in the order in which they got them.
    own: [u8; MAX_NODES],
    own_count: usize,
}

/// The class of each subtree after the change: that of its state, but for the tree itself.
pub fn classes_of(table: &[u8], subtrees: &Subtrees, inserting: bool) -> [u8; MAX_NODES] {
    let mut classes = [0; MAX_NODES];
    for j in 0..subtrees.count {
        let state = usize::from(subtrees.states[j]);
        classes[j] = if state == 0 { 0 } else { table[state] };
    }
    classes[subtrees.count - 1] = u8::from(inserting);
    classes
}

pub fn name_all(
    table: &[u8],
    known: &Known,
    subtrees: &Subtrees,
    classes: &[u8; MAX_NODES],
    open: &[u8; NAMES],
) -> [u8; MAX_NODES] {
    let mut naming = Naming {
        known,
        subtrees,
        classes: *classes,
        open,
        edges: Edges::of(subtrees),
        slots: Slots::none(),
        names: [0; MAX_NODES],
        sizes: [0; MAX_NODES],
        own: [0; MAX_NODES],
        own_count: 0,
    };
    for j in (0..subtrees.count).rev() {
        if naming.anchored(j) {
            naming.take_own(j);
        } else {
            naming.name(table, j);
        }
    }
    naming.names
}

impl Naming<'_> {
    fn own_name(&self, j: usize) -> u8 {
        (self.known.states + j + 1) as u8
    }

    /// Whether some parent is alone with its own name, which keeps the child alone.
    fn anchored(&self, j: usize) -> bool {
        self.edges.parents(j).any(|(i, _)| self.names[i] == self.own_name(i) && self.sizes[i] == 1)
    }

    fn take_own(&mut self, j: usize) {
        self.names[j] = self.own_name(j);
        self.sizes[j] = 1;
        self.own[self.own_count] = j as u8;
        self.own_count += 1;
    }

    fn name(&mut self, table: &[u8], j: usize) {
        self.slots.count = 0;
        self.slots.add(self.subtrees, &self.edges, &self.names, j);
        let mine = self.slots.count;
        if let Some(state) = self.equivalent_state(table, j) {
            self.names[j] = state as u8;
        } else if let Some(i) = self.equivalent_subtree(mine, j) {
            self.names[j] = self.own_name(i);
            self.sizes[i] += 1;
        } else {
            self.take_own(j);
        }
    }

    /// An open state, or 0 for none, that the subtree is equivalent to.
    fn equivalent_state(&self, table: &[u8], j: usize) -> Option<usize> {
        let Known { prints, states, .. } = *self.known;
        let p = usize::from(self.subtrees.states[j]);
        let before = if p == 0 { 0 } else { u64::from(table[p]) };
        let start = (prints[p] - CLASS * before).wrapping_add(CLASS * u64::from(self.classes[j]));
        let print = sought(self.known, &self.slots, start)?;
        // Equal prints have equal classes.
        (0..=states).find(|&q| {
            prints[q] == print
                && (q == 0 || self.open[q] != 0)
                && alike(self.known, &self.slots, self.slots.count, p, q)
        })
    }

    /// A subtree with its own name that the subtree is equivalent to.
    fn equivalent_subtree(&mut self, mine: usize, j: usize) -> Option<usize> {
        let p = usize::from(self.subtrees.states[j]);
        for x in 0..self.own_count {
            let i = usize::from(self.own[x]);
            if self.classes[i] != self.classes[j] {
                continue;
            }
            self.slots.count = mine;
            self.slots.add(self.subtrees, &self.edges, &self.names, i);
            if alike(self.known, &self.slots, mine, p, usize::from(self.subtrees.states[i])) {
                return Some(i);
            }
        }
        None
    }
}
