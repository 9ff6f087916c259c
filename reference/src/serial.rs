//! Serial numbers of accepted trees, from 0: all trees listed and sorted, if they are few and small, and by exact
//! numbers of the trees that come before. The automaton is one that passed intake.

use crate::automaton::{Automaton, Key};
use crate::natural::Natural;
use crate::total::{listed, of_state};
use crate::tree::{Tree, MAX_NODES};
use std::collections::BTreeMap;

/// What trees are compared by, in this order: the state that the tree leads to, the position of the line used at its
/// top, and its children, the first that differ deciding.
#[derive(PartialEq, Eq, PartialOrd, Ord)]
struct Place {
    state: u8,
    line: usize,
    children: Vec<Place>,
}

impl Place {
    fn of(automaton: &Automaton, tree: &Tree) -> Place {
        let children: Vec<Place> = tree.children.iter().map(|child| Place::of(automaton, child)).collect();
        let key = Key::new(tree.label, children.iter().map(|child| child.state).collect());
        let line = automaton.transitions.keys().position(|other| *other == key).expect("each part leads to a state");
        Place { state: automaton.transitions[&key], line, children }
    }
}

/// All accepted trees in their order, so that the number of each is its index, if all trees of all states together have
/// at most so many nodes.
pub fn sorted(automaton: &Automaton, nodes: usize) -> Option<Vec<Tree>> {
    let mut trees: Vec<Tree> = listed(automaton, nodes)?.into_iter().collect();
    trees.sort_by_cached_key(|tree| Place::of(automaton, tree));
    Some(trees)
}

/// The exact number of trees of each state.
struct Numbers<'a> {
    automaton: &'a Automaton,
    of_states: BTreeMap<u8, Natural>,
}

impl Numbers<'_> {
    fn new(automaton: &Automaton) -> Numbers<'_> {
        let mut of_states = BTreeMap::new();
        for state in 1..=automaton.accepting.len() as u8 {
            of_state(automaton, state, &mut of_states);
        }
        Numbers { automaton, of_states }
    }

    /// In how many ways children can be chosen for these states.
    fn choices(&self, states: &[u8]) -> Natural {
        states.iter().fold(Natural::new(1), |product, state| product.times(&self.of_states[state]))
    }

    /// The lines that lead to a state, in their order.
    fn lines(&self, state: u8) -> impl Iterator<Item = &Key> {
        self.automaton.transitions.iter().filter(move |(_, &out)| out == state).map(|(key, _)| key)
    }

    /// How many trees of the tree's own state come before it.
    fn before(&self, tree: &Tree) -> Natural {
        let states: Vec<u8> = tree.children.iter().map(|child| self.automaton.run(child)).collect();
        let own = Key::new(tree.label, states.clone());
        let earlier = self.lines(self.automaton.run(tree)).take_while(|key| **key < own);
        let mut sum = earlier.fold(Natural::new(0), |sum, key| sum.plus(&self.choices(&key.args)));
        // With the children up to the k-th the same, an earlier tree for the k-th goes with any trees after it.
        for (k, child) in tree.children.iter().enumerate() {
            sum = sum.plus(&self.before(child).times(&self.choices(&states[k + 1..])));
        }
        sum
    }

    /// The tree of a number within a state; none if it has more than so many nodes, which are then used up.
    fn tree(&self, state: u8, number: u64, nodes: &mut usize) -> Option<Tree> {
        *nodes = nodes.checked_sub(1)?;
        let mut rest = number;
        for key in self.lines(state) {
            let here = small(&self.choices(&key.args));
            if rest < here {
                let digits = self.digits(&key.args, rest);
                let children = key.args.iter().zip(digits).map(|(&q, digit)| self.tree(q, digit, nodes));
                return Some(Tree::new(key.label, children.collect::<Option<_>>()?));
            }
            rest -= here;
        }
        panic!("number {number} is not below the number of trees of state {state}")
    }

    /// The number of each child within its own state, from their number together, in which the last counts least.
    fn digits(&self, states: &[u8], number: u64) -> Vec<u64> {
        let mut rest = number;
        let mut digits = Vec::new();
        for state in states.iter().rev() {
            let each = small(&self.of_states[state]);
            digits.push(rest % each);
            rest /= each;
        }
        digits.reverse();
        digits
    }

    fn accepting(&self) -> impl Iterator<Item = u8> + '_ {
        (1..=self.automaton.accepting.len() as u8).filter(|&q| self.automaton.accepts(q))
    }
}

/// A number of trees of a state, or at a line. Each of them is part of an accepted tree, and another in its place makes
/// another accepted tree: so they are no more than the total, which is not over.
fn small(number: &Natural) -> u64 {
    number.small().expect("no more than the total")
}

/// How many accepted trees come before an accepted one.
pub fn number(automaton: &Automaton, tree: &Tree) -> Natural {
    let numbers = Numbers::new(automaton);
    let earlier = numbers.accepting().take_while(|&q| q < automaton.run(tree));
    earlier.fold(numbers.before(tree), |sum, q| sum.plus(&numbers.of_states[&q]))
}

/// The tree of a number below the total, if a listing can hold it. The total is not over.
pub fn tree(automaton: &Automaton, number: u64) -> Option<Tree> {
    let numbers = Numbers::new(automaton);
    let mut rest = number;
    for state in numbers.accepting() {
        let here = small(&numbers.of_states[&state]);
        if rest < here {
            let mut nodes = MAX_NODES;
            return numbers.tree(state, rest, &mut nodes);
        }
        rest -= here;
    }
    panic!("number {number} is not below the total")
}
