//! How many trees an automaton without loops accepts: all of them listed, if they are few and small, and by sums and
//! products of exact numbers.

use crate::automaton::Automaton;
use crate::natural::Natural;
use crate::tree::Tree;
use std::collections::{BTreeMap, BTreeSet};

/// The number of trees that run to each of the accepting states, added up.
pub fn exact(automaton: &Automaton) -> Natural {
    let mut known = BTreeMap::new();
    let accepting = (1..=automaton.accepting.len() as u8).filter(|&q| automaton.accepts(q));
    accepting.fold(Natural::new(0), |sum, q| sum.plus(&of_state(automaton, q, &mut known)))
}

/// Each tree of a state has one transition at its top, and the children are chosen one by one.
pub fn of_state(automaton: &Automaton, state: u8, known: &mut BTreeMap<u8, Natural>) -> Natural {
    if let Some(number) = known.get(&state) {
        return number.clone();
    }
    let mut sum = Natural::new(0);
    for (key, _) in automaton.transitions.iter().filter(|(_, &out)| out == state) {
        let mut product = Natural::new(1);
        for &argument in &key.args {
            product = product.times(&of_state(automaton, argument, known));
        }
        sum = sum.plus(&product);
    }
    known.insert(state, sum.clone());
    sum
}

/// All accepted trees, if all trees of all states together have at most so many nodes.
pub fn listed(automaton: &Automaton, nodes: usize) -> Option<BTreeSet<Tree>> {
    let mut trees = States::new();
    loop {
        let deeper = one_deeper(automaton, &trees, nodes)?;
        if deeper == trees {
            break;
        }
        trees = deeper;
    }
    Some(trees.into_iter().filter(|(q, _)| automaton.accepts(*q)).flat_map(|(_, of)| of).collect())
}

type States = BTreeMap<u8, BTreeSet<Tree>>;

static NONE: BTreeSet<Tree> = BTreeSet::new();

/// The trees of each state whose children are among the trees given.
fn one_deeper(automaton: &Automaton, trees: &States, nodes: usize) -> Option<States> {
    let mut deeper = States::new();
    let mut left = nodes;
    for (key, &out) in &automaton.transitions {
        let below = key.args.iter().map(|argument| trees.get(argument).unwrap_or(&NONE));
        for children in choices(below, left)? {
            let tree = Tree::new(key.label, children);
            left = left.checked_sub(tree.nodes())?;
            deeper.entry(out).or_default().insert(tree);
        }
    }
    Some(deeper)
}

/// One tree of each set, in every way, if there are at most so many ways.
fn choices<'a>(sets: impl Iterator<Item = &'a BTreeSet<Tree>>, most: usize) -> Option<Vec<Vec<Tree>>> {
    let mut rows: Vec<Vec<Tree>> = vec![Vec::new()];
    for set in sets {
        if rows.len() * set.len() > most {
            return None;
        }
        let longer = |row: &Vec<Tree>, tree: &Tree| row.iter().chain([tree]).cloned().collect();
        rows = rows.iter().flat_map(|row| set.iter().map(move |tree| longer(row, tree))).collect();
    }
    Some(rows)
}
