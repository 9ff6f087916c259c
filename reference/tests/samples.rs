//! The samples of document 01, and the automaton of a set worked out afresh from its words.

use reference::automaton::{Automaton, Key};
use reference::table::{encode, intake, SCRATCH_BYTES, TABLE_BYTES};
use reference::tree::{read, Tree};
use reference::{add, ask, remove, take_in, total, Answer};
use std::collections::{BTreeMap, BTreeSet};

struct Bench {
    table: Vec<u8>,
    scratch: Vec<u8>,
}

impl Bench {
    fn new() -> Bench {
        Bench { table: vec![0; TABLE_BYTES], scratch: vec![7; SCRATCH_BYTES] }
    }

    fn add(&mut self, tree: &Tree) -> Answer {
        add(&tree.listing(), &mut self.table, &mut self.scratch)
    }

    fn remove(&mut self, tree: &Tree) -> Answer {
        remove(&tree.listing(), &mut self.table, &mut self.scratch)
    }
}

fn leaf(label: u16) -> Tree {
    Tree::leaf(label)
}

fn fork(label: u16, left: u16, right: u16) -> Tree {
    Tree::new(label, vec![leaf(left), leaf(right)])
}

fn done(states: usize, transitions: usize) -> Answer {
    Answer::Counts { states, transitions }
}

fn p6() -> Bench {
    let mut bench = Bench::new();
    for (a, b) in [(1, 1), (1, 2), (2, 1), (2, 2)] {
        bench.add(&fork(1, a, b));
    }
    bench
}

#[test]
fn listings() {
    assert_eq!(read(&[0, 1, 1]), Err(4));
    assert_eq!(read(&[0, 1, 0, 0, 1, 0]), Err(4));
    assert_eq!(read(&[0, 0, 9]), Err(2));
    assert_eq!(read(&[0, 1, 9]), Err(3));
    for wrong in [&[][..], &[1], &[0, 1], &[0, 1, 1, 1], &[0, 1, 0, 0, 1]] {
        assert_eq!(read(wrong), Err(1));
    }
    assert_eq!(read(&[1, 0, 0]), Ok(leaf(256)));
    assert_eq!(read(&[0, 255, 0]), Ok(leaf(255)));
    assert_eq!(read(&[255, 255, 0]), Ok(leaf(65_535)));
    assert_eq!(read(&[1, 0, 1, 0, 0, 0]), Err(2));
    let chain = |n: usize| (1..n).fold(leaf(1), |tree, _| Tree::new(1, vec![tree]));
    assert!(read(&chain(48).listing()).is_ok());
    assert_eq!(read(&chain(49).listing()), Err(1));
}

#[test]
fn p5_to_p11() {
    let mut bench = Bench::new();
    assert_eq!(bench.add(&leaf(1)), done(1, 1));
    assert_eq!(bench.table[1], 1);
    assert_eq!(bench.remove(&leaf(1)), done(0, 0));
    assert!(bench.table.iter().chain(&bench.scratch).all(|&byte| byte == 0));

    let six = p6();
    assert_eq!(take_in(&six.table), done(2, 3));
    let mut seven = p6();
    assert_eq!(seven.add(&fork(2, 1, 2)), done(3, 7));
    assert_eq!(seven.remove(&fork(2, 1, 2)), done(2, 3));
    assert_eq!(seven.table, six.table);
    assert_eq!(p6().remove(&fork(1, 1, 1)), done(3, 5));
    assert_eq!(p6().add(&leaf(1)), done(3, 6));
}

/// Order 1: what ask says of trees that are not approved.
#[test]
fn places() {
    let mut bench = Bench::new();
    bench.add(&fork(1, 1, 1));
    let answer = |tree: &Tree| ask(&tree.listing(), &bench.table);
    assert_eq!(answer(&fork(1, 1, 1)), Answer::Approved);
    assert_eq!(answer(&leaf(1)), Answer::NotPart);
    assert_eq!(answer(&leaf(2)), Answer::NotAt(1));
    assert_eq!(answer(&fork(1, 1, 2)), Answer::NotAt(3));
    assert_eq!(answer(&fork(1, 2, 2)), Answer::NotAt(2));
    assert_eq!(answer(&fork(2, 1, 1)), Answer::NotAt(1));
    // Of nodes 3 and 6, which stop, the first counts, and the nodes above them have children without a state.
    let inner = Tree::new(1, vec![leaf(2), leaf(1)]);
    assert_eq!(answer(&Tree::new(1, vec![inner.clone(), inner])), Answer::NotAt(3));
    let chain = (1..48).fold(leaf(9), |tree, _| Tree::new(1, vec![tree]));
    assert_eq!(answer(&chain), Answer::NotAt(48));
}

/// What ask says of a tree, from the set and the words of order 1 alone.
fn answer_afresh(set: &BTreeSet<Tree>, tree: &Tree) -> Answer {
    let known: BTreeSet<&Tree> = set.iter().flat_map(Tree::parts).collect();
    let stops = |part: &&Tree| !known.contains(part) && part.children.iter().all(|child| known.contains(child));
    match tree.parts().iter().position(stops) {
        _ if set.contains(tree) => Answer::Approved,
        _ if known.contains(tree) => Answer::NotPart,
        Some(place) => Answer::NotAt(place + 1),
        None => panic!("a tree that is no part has a part that stops"),
    }
}

/// The paper's example, by section 3.4: the line for label a over q1 q3 is there.
#[test]
fn paper() {
    let mut bench = p6();
    bench.add(&fork(2, 1, 2));
    let automaton = intake(&bench.table).unwrap();
    let pairs = [(1, 1), (1, 2), (2, 1), (2, 2)];
    for (a, b) in pairs {
        assert_eq!(automaton.transitions.get(&Key::new(1, vec![a, b])), Some(&3));
    }
    assert_eq!(automaton.transitions.get(&Key::new(2, vec![1, 2])), Some(&3));
    assert_eq!(automaton.transitions.len(), 7);
}

/// Tables with m labels, each over all 256 choices of eight children from (1) and (2), built by hand.
fn families(m: u16) -> Vec<u8> {
    let mut transitions = BTreeMap::from([(Key::new(1, vec![]), 1), (Key::new(2, vec![]), 1)]);
    for label in 0..m {
        transitions.insert(Key::new(3 + label, vec![1; 8]), 2);
    }
    encode(&Automaton { accepting: vec![false, true], transitions })
}

#[test]
fn all_256() {
    let mut bench = Bench::new();
    for bits in 0..256 {
        let children = (0..8).map(|k| leaf(1 + (bits >> k & 1))).collect();
        bench.add(&Tree::new(3, children));
    }
    assert_eq!(bench.table, families(1));
    let extra = Tree::new(20, vec![leaf(1)]);
    for (labels, answer) in [
        (1, done(3, 259)),
        (3, done(3, 771)),
        (4, Answer::Refused(17)),
        (11, Answer::Refused(17)),
        (12, Answer::Refused(16)),
    ] {
        let mut bench = Bench { table: families(labels), scratch: vec![9; SCRATCH_BYTES] };
        assert_eq!(bench.add(&extra), answer);
        assert!(bench.scratch.iter().all(|&byte| byte == 0));
        if let Answer::Refused(_) = answer {
            assert_eq!(bench.table, families(labels));
        }
    }
}

/// The automaton of a finite set, worked out from the words of document 01: parts are alike when every tree with a
/// part cut out takes both or neither.
fn afresh(set: &BTreeSet<Tree>) -> Vec<u8> {
    let mut parts = BTreeSet::new();
    let mut contexts: BTreeSet<(Tree, Vec<usize>)> = BTreeSet::new();
    for tree in set {
        walk(tree, &mut Vec::new(), tree, &mut parts, &mut contexts);
    }
    let mut group: BTreeMap<Tree, usize> = BTreeMap::new();
    let mut seen: BTreeMap<Vec<bool>, usize> = BTreeMap::new();
    for part in &parts {
        let fits: Vec<bool> = contexts.iter().map(|(tree, path)| set.contains(&filled(tree, path, part))).collect();
        let fresh = seen.len() + 1;
        group.insert(part.clone(), *seen.entry(fits).or_insert(fresh));
    }
    let mut accepting = vec![false; seen.len()];
    let mut transitions = BTreeMap::new();
    for part in &parts {
        let args = part.children.iter().map(|child| group[child] as u8).collect();
        transitions.insert(Key::new(part.label, args), group[part] as u8);
        accepting[group[part] - 1] |= set.contains(part);
    }
    encode(&Automaton { accepting, transitions }.renumbered())
}

fn walk(
    part: &Tree,
    path: &mut Vec<usize>,
    tree: &Tree,
    parts: &mut BTreeSet<Tree>,
    contexts: &mut BTreeSet<(Tree, Vec<usize>)>,
) {
    parts.insert(part.clone());
    contexts.insert((tree.clone(), path.clone()));
    for (k, child) in part.children.iter().enumerate() {
        path.push(k);
        walk(child, path, tree, parts, contexts);
        path.pop();
    }
}

fn filled(tree: &Tree, path: &[usize], part: &Tree) -> Tree {
    match path.split_first() {
        None => part.clone(),
        Some((&k, rest)) => {
            let mut new = tree.clone();
            new.children[k] = filled(&tree.children[k], rest, part);
            new
        }
    }
}

/// Compared low byte first these stand in another order, and by one byte alone two of them are the same.
const LABELS: [u16; 3] = [258, 513, 514];

/// A small pseudo-random sequence, the same on every machine.
struct Dice(u64);

impl Dice {
    fn roll(&mut self, below: usize) -> usize {
        self.0 = self.0.wrapping_mul(6_364_136_223_846_793_005).wrapping_add(1_442_695_040_888_963_407);
        ((self.0 >> 33) % below as u64) as usize
    }

    fn tree(&mut self, depth: usize) -> Tree {
        let children = if depth == 0 { 0 } else { self.roll(3) };
        Tree::new(LABELS[self.roll(LABELS.len())], (0..children).map(|_| self.tree(depth - 1)).collect())
    }
}

#[test]
fn series_equal_what_is_worked_out_afresh() {
    for seed in 0..12 {
        let mut dice = Dice(seed);
        let mut bench = Bench::new();
        let mut set = BTreeSet::new();
        for _ in 0..60 {
            let tree = dice.tree(2);
            assert_eq!(ask(&tree.listing(), &bench.table), answer_afresh(&set, &tree));
            if dice.roll(3) < 2 {
                assert_eq!(bench.add(&tree) == Answer::Refused(14), !set.insert(tree));
            } else {
                assert_eq!(bench.remove(&tree) == Answer::Refused(15), !set.remove(&tree));
            }
            assert_eq!(bench.table, afresh(&set), "seed {seed}, set {set:?}");
            assert_eq!(total(&bench.table), Answer::Total(set.len() as u64));
        }
    }
}
