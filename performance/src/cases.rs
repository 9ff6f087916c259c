//! The tables that are measured, each with a tree that is put in and, if not the same, one that is taken out.

use crate::tables;
use differential::dice::Dice;
use reference::automaton::Automaton;
use reference::tree::Tree;

pub struct Case {
    pub name: &'static str,
    pub automaton: Automaton,
    /// What is asked for, and taken out if the addition is refused.
    pub inside: Tree,
    pub added: Tree,
    /// What is taken out of the table; None for what was added, out of the table that has it.
    pub removed: Option<Tree>,
}

impl Case {
    /// Asks for (255), puts it in and takes it out.
    fn new(name: &'static str, automaton: Automaton) -> Case {
        Case { name, automaton, inside: Tree::leaf(255), added: Tree::leaf(255), removed: None }
    }

    /// With a tree of the set, and one like it that is not in the set. The set's trees are not large.
    fn drawn(name: &'static str, automaton: Automaton) -> Case {
        let (inside, added) = trees(&automaton);
        Case { name, automaton, inside, added, removed: None }
    }

    fn adding(self, added: Tree) -> Case {
        Case { added, ..self }
    }

    fn asking(self, inside: Tree) -> Case {
        Case { inside, ..self }
    }

    fn removing(self, tree: Tree) -> Case {
        Case { inside: tree.clone(), removed: Some(tree), ..self }
    }
}

/// A tree of the set, if one fits a listing, and one like it that is not in the set.
fn trees(automaton: &Automaton) -> (Tree, Tree) {
    let mut dice = Dice::new(7);
    let Some(inside) = (0..1000).find_map(|_| dice.accepted(automaton)) else {
        return (Tree::leaf(255), Tree::leaf(255));
    };
    let outside = (0..1000).map(|_| dice.near_miss(automaton, &inside));
    let outside = outside.into_iter().find(|tree| !automaton.accepts(automaton.run(tree)));
    (inside, outside.unwrap_or(Tree::leaf(255)))
}

fn over(label: u16, leaves: &[u16]) -> Tree {
    Tree::new(label, leaves.iter().copied().map(Tree::leaf).collect())
}

/// A chain of 48 nodes: 48 distinct subtrees.
fn chain_of_48(labels: impl Iterator<Item = u16>) -> Tree {
    let mut labels = labels.take(48);
    let leaf = Tree::leaf(labels.next().expect("a leaf"));
    labels.fold(leaf, |below, label| Tree::new(label, vec![below]))
}

/// The samples of document 01.
fn samples() -> Vec<Case> {
    let split = || over(20, &[1]);
    let only = Automaton { accepting: vec![true], transitions: tables::leaves(&[1]) };
    vec![
        Case::new("empty", Automaton::default()).adding(Tree::leaf(1)),
        Case::new("one tree", only).removing(Tree::leaf(1)),
        Case::drawn("P6", tables::pairs(1)).adding(over(2, &[1, 2])),
        Case::new("P6 without a tree", tables::pairs(1)).removing(over(1, &[1, 1])),
        Case::drawn("P6 and (1)", tables::pairs(1)).adding(Tree::leaf(1)),
        Case::drawn("P7", tables::example()),
        Case::drawn("1 family", tables::families(1)).adding(split()),
        Case::drawn("3 families", tables::families(3)).adding(split()),
        Case::drawn("4 families", tables::families(4)).adding(split()),
        Case::drawn("11 families", tables::families(11)).adding(split()),
        Case::drawn("12 families", tables::families(12)).adding(split()),
    ]
}

pub fn all() -> Vec<Case> {
    let new_48 = || chain_of_48(201..=255);
    let part_48 = || chain_of_48(std::iter::once(1).chain(1..));
    let mut cases = samples();
    cases.extend([
        Case::drawn("P6 of 130 labels and (1)", tables::pairs(130)).adding(Tree::leaf(1)),
        Case::drawn("mixed 40/300", tables::mixed(40, 300)),
        Case::drawn("mixed 190/900", tables::mixed(190, 900)),
        Case::drawn("mixed 200/1024", tables::mixed(200, 1024)),
        Case::drawn("star 200/1024", tables::star()),
        Case::new("wide chain 200/1024", tables::wide_chain()).adding(over(1, &[1; 8])),
        Case::new("chain 150", tables::chain(150)),
        Case::new("chain 200", tables::chain(200)),
        Case::new("chain 150, part of 48", tables::chain(150)).asking(part_48()).adding(part_48()),
        Case::new("empty, 48 subtrees", Automaton::default()).adding(new_48()),
        Case::drawn("11 families, 48 subtrees", tables::families(11)).adding(new_48()),
        Case::new("chain 150, 48 subtrees", tables::chain(150)).adding(new_48()),
        Case::drawn("mixed 100/512, 48 subtrees", tables::mixed(100, 512)).adding(new_48()),
        Case::new("ladder 150/292, part of 48", tables::ladder(150, 2, 3)).asking(part_48()).adding(part_48()),
    ]);
    cases
}

/// Tables of different sizes, to see how times grow, each after its numbers of states and transitions.
pub fn sizes() -> Vec<(String, Case)> {
    let sizes = [(25, 128), (50, 256), (100, 512), (200, 1024), (25, 1024), (50, 1024), (100, 1024), (100, 256)];
    let case = |(states, count)| (format!("{states} | {count}"), Case::drawn("mixed", tables::mixed(states, count)));
    sizes.into_iter().map(case).collect()
}
