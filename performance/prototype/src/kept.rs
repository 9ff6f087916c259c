//! The names that are states of the new table, and the numbers of transitions of the product and of the new table.

use crate::format::{MAX_NODES, NAMES};
use crate::packed::{byte_of, places, Transition};
use crate::subtrees::Subtrees;

/// The names that are kept: open states, and the own names of subtrees.
pub struct Kept {
    pub count: usize,
    /// The kept names of each state, as lists.
    pub heads: [u8; NAMES],
    pub nexts: [u8; NAMES],
    /// The state that each name stems from, and its class.
    pub owners: [u8; NAMES],
    pub classes: [u8; NAMES],
    /// The order in which the names will perhaps be numbered.
    pub order: [u8; NAMES],
    /// How many names of each state are kept, 1 for no state.
    pub sizes: [u8; NAMES],
}

pub fn keep(
    table: &[u8],
    subtrees: &Subtrees,
    classes: &[u8; MAX_NODES],
    open: &[u8; NAMES],
    names: &[u8; MAX_NODES],
) -> Kept {
    let states = usize::from(table[0]);
    let none = [0; NAMES];
    let mut kept =
        Kept { count: 0, heads: none, nexts: none, owners: none, classes: none, order: none, sizes: [1; NAMES] };
    for j in (0..subtrees.count).rev() {
        let name = states + j + 1;
        if usize::from(names[j]) == name {
            kept.push(name, subtrees.states[j], classes[j]);
        }
    }
    for q in 1..=states {
        if open[q] != 0 {
            kept.push(q, q as u8, table[q]);
        }
    }
    kept.guess(states, subtrees, names);
    kept
}

impl Kept {
    fn push(&mut self, name: usize, state: u8, class: u8) {
        self.count += 1;
        self.classes[name] = class;
        if state != 0 {
            let head = &mut self.heads[usize::from(state)];
            self.owners[name] = state;
            self.nexts[name] = *head;
            *head = name as u8;
        }
    }

    /// The order of the states, and within it that of their names; new subtrees last.
    fn guess(&mut self, states: usize, subtrees: &Subtrees, names: &[u8; MAX_NODES]) {
        let mut rank = 0u8;
        for q in 1..=states {
            self.sizes[q] = 0;
            let mut name = usize::from(self.heads[q]);
            while name != 0 {
                self.sizes[q] += 1;
                rank = rank.wrapping_add(1);
                self.order[name] = rank;
                name = usize::from(self.nexts[name]);
            }
        }
        for j in 0..subtrees.count {
            let name = states + j + 1;
            if subtrees.states[j] == 0 && usize::from(names[j]) == name {
                rank = rank.wrapping_add(1);
                self.order[name] = rank;
            }
        }
    }
}

/// Whether the children of the subtree at j all have their own names.
pub fn children_kept(states: usize, subtrees: &Subtrees, names: &[u8; MAX_NODES], j: usize) -> bool {
    (0..subtrees.arity(j)).fold(true, |kept, k| {
        let child = byte_of(subtrees.children[j], k);
        kept & (usize::from(names[child - 1]) == states + child)
    })
}

/// The numbers of transitions of the product, its lost subtrees apart, and of the new table.
pub fn sums(
    run: &[Transition],
    states: usize,
    subtrees: &Subtrees,
    names: &[u8; MAX_NODES],
    counts: &[u8; NAMES],
    kept: &Kept,
) -> (u64, u64) {
    let one_each = (1..=states).fold(true, |one, q| one & (counts[q] == 1) & (kept.sizes[q] == 1));
    let (product, mut new) =
        if one_each { (run.len() as u64, run.len() as u64) } else { sums_over(run, counts, &kept.sizes) };
    for j in 0..subtrees.count {
        let (lost, gone) = (subtrees.states[j] == 0, names[j] == 0);
        if lost != gone && children_kept(states, subtrees, names, j) {
            new = if lost { new + 1 } else { new - 1 };
        }
    }
    (product, new)
}

/// The sums over all transitions of the products of what two arrays have for their arguments.
fn sums_over(run: &[Transition], first: &[u8; NAMES], second: &[u8; NAMES]) -> (u64, u64) {
    let mut sums = (0, 0);
    for transition in run {
        let mut products = (1, 1);
        for &argument in places(transition) {
            products.0 *= u64::from(first[usize::from(argument)]);
            products.1 *= u64::from(second[usize::from(argument)]);
        }
        sums = (sums.0 + products.0, sums.1 + products.1);
    }
    sums
}
