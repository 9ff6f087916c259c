//! The transitions between kept names, written with a number for each name.

use crate::format::{ARITY_AT, MAX_NODES, MAX_TRANSITIONS, NAMES};
use crate::kept::{children_kept, Kept};
use crate::open::NODE;
use crate::packed::{args_of, byte_of, mapped, meta_of, out_of, placed, places, without, Transition};
use crate::sorting::Pairs;
use crate::subtrees::Subtrees;

/// What the new table is made of, besides the old one.
pub struct Plan<'a> {
    /// The number of states of the old table.
    pub states: usize,
    pub subtrees: &'a Subtrees,
    pub names: &'a [u8; MAX_NODES],
    pub marks: &'a [u8; MAX_TRANSITIONS],
    pub kept: &'a Kept,
}

/// The kept names of each state as lists, and the number of each name.
pub struct Numbered<'a> {
    pub heads: &'a [u8; NAMES],
    pub nexts: &'a [u8; NAMES],
    pub numbers: &'a [u8; NAMES],
}

/// How many names of a state are kept.
const SEVERAL: u8 = 1;
const NONE: u8 = 2;

struct Making<'a, 'b> {
    plan: &'a Plan<'a>,
    lists: &'a Numbered<'a>,
    /// The children of each subtree as packed own names.
    keys: [u64; MAX_NODES],
    pairs: &'a mut Pairs<'b>,
    count: usize,
}

/// Makes the transitions, or only those from marked transitions and from subtrees. Returns how many they are.
pub fn make(plan: &Plan, run: &[Transition], few: bool, lists: &Numbered, pairs: &mut Pairs) -> usize {
    let mut making = Making { plan, lists, keys: [0; MAX_NODES], pairs, count: 0 };
    for j in 0..plan.subtrees.count {
        making.keys[j] = mapped(plan.subtrees.children[j], plan.subtrees.arity(j), |child| plan.states + child);
    }
    let (firsts, kinds) = first_names(plan.states, lists);
    for (i, transition) in run.iter().enumerate() {
        let mark = plan.marks[i];
        if few && mark == 0 {
            continue;
        }
        let mut kind = if mark >= NODE { SEVERAL } else { 0 };
        let mut args = 0u64;
        for &argument in places(transition) {
            kind |= kinds[usize::from(argument)];
            args = args << 8 | u64::from(firsts[usize::from(argument)]);
        }
        if kind == 0 {
            let unused = 64 - 8 * u32::from(transition[ARITY_AT]);
            making.push(meta_of(transition), args.checked_shl(unused).unwrap_or(0), out_of(transition));
        } else if kind < NONE {
            making.choose(i, transition, mark >= NODE);
        }
    }
    making.add_lost();
    making.count
}

/// The number of the first kept name of each state, and whether none or several are kept.
fn first_names(states: usize, lists: &Numbered) -> ([u8; NAMES], [u8; NAMES]) {
    let (mut firsts, mut kinds) = ([0; NAMES], [0; NAMES]);
    for q in 1..=states {
        let head = usize::from(lists.heads[q]);
        firsts[q] = lists.numbers[head];
        kinds[q] = if head == 0 { NONE } else { u8::from(lists.nexts[head] != 0) };
    }
    (firsts, kinds)
}

impl Making<'_, '_> {
    /// One transition; the arguments are numbers, the output is a name.
    fn push(&mut self, meta: u64, args: u64, out: usize) {
        self.pairs.heads[self.count] = meta << 8 | u64::from(self.lists.numbers[out]);
        self.pairs.args[self.count] = args;
        self.count += 1;
    }

    fn numbered(&self, names: u64, arity: usize) -> u64 {
        mapped(names, arity, |name| usize::from(self.lists.numbers[name]))
    }

    /// All choices of kept names for the arguments of transition i.
    fn choose(&mut self, i: usize, transition: &Transition, is_node: bool) {
        let arity = usize::from(transition[ARITY_AT]);
        let old = args_of(transition);
        let mut choice = Some(mapped(old, arity, |q| usize::from(self.lists.heads[q])));
        while let Some(names) = choice {
            let node = if is_node { self.node_name(i + 1, names) } else { None };
            let out = node.unwrap_or(out_of(transition));
            if out != 0 {
                self.push(meta_of(transition), self.numbered(names, arity), out);
            }
            choice = self.next_choice(old, names, arity);
        }
    }

    /// The choice after this one; the last argument runs fastest.
    fn next_choice(&self, old: u64, mut names: u64, arity: usize) -> Option<u64> {
        for k in (0..arity).rev() {
            let next = usize::from(self.lists.nexts[byte_of(names, k)]);
            names = without(names, k);
            if next != 0 {
                return Some(names | placed(next, k));
            }
            names |= placed(usize::from(self.lists.heads[byte_of(old, k)]), k);
        }
        None
    }

    /// The name of the subtree with this transition at its root and these named children, if there is one.
    fn node_name(&self, root: usize, names: u64) -> Option<usize> {
        let Plan { subtrees, names: all, .. } = self.plan;
        let is_node = |&j: &usize| usize::from(subtrees.roots[j]) == root && self.keys[j] == names;
        (0..subtrees.count).find(is_node).map(|j| usize::from(all[j]))
    }

    /// The transitions of subtrees that run to no state.
    fn add_lost(&mut self) {
        let Plan { states, subtrees, names, .. } = *self.plan;
        for j in 0..subtrees.count {
            if subtrees.states[j] == 0 && names[j] != 0 && children_kept(states, subtrees, names, j) {
                let args = self.numbered(self.keys[j], subtrees.arity(j));
                self.push(subtrees.metas[j], args, usize::from(names[j]));
            }
        }
    }
}
