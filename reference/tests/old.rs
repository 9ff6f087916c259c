//! Order 5: tables with labels of one byte, and the same automata with labels of two.

use reference::automaton::{Automaton, Key};
use reference::table::{encode, intake, HEAD, MAX_TRANSITIONS, SCRATCH_BYTES, TABLE_BYTES, WIDTH};
use reference::tree::{self, Tree};
use reference::{add, ask, asked, old, remove, total, Answer};
use std::collections::BTreeMap;

/// The old table with a zero before the label of each line, without a look at what it holds.
fn widened(table: &[u8]) -> Vec<u8> {
    let lines = table[HEAD..].chunks_exact(WIDTH - 1).flat_map(|line| [&[0], line].concat());
    table[..HEAD].iter().copied().chain(lines).collect()
}

fn leaf(label: u16) -> Tree {
    Tree::leaf(label)
}

/// (1 a b) for leaves a and b from 1 and 255, but not (1 (1) (1)); and (200 (1) (255)).
fn example() -> Automaton {
    let mut transitions = BTreeMap::from([(Key::new(1, vec![]), 1), (Key::new(255, vec![]), 2)]);
    for args in [[1, 2], [2, 1], [2, 2]] {
        transitions.insert(Key::new(1, args.to_vec()), 3);
    }
    transitions.insert(Key::new(200, vec![1, 2]), 3);
    Automaton { accepting: vec![false, false, true], transitions }
}

#[test]
fn widths() {
    assert_eq!((TABLE_BYTES, SCRATCH_BYTES), (HEAD + WIDTH * MAX_TRANSITIONS, 3 * WIDTH * MAX_TRANSITIONS));
    assert_eq!((old::TABLE_BYTES, old::SCRATCH_BYTES), (HEAD + 11 * MAX_TRANSITIONS, 3 * 11 * MAX_TRANSITIONS));
    let table = old::encode(&example()).expect("labels below 256");
    assert_eq!((table.len(), widened(&table).len()), (old::TABLE_BYTES, TABLE_BYTES));
    // The first line and the last, label first.
    assert_eq!(table[HEAD..HEAD + 11], [1, 0, 0, 0, 0, 0, 0, 0, 0, 0, 1]);
    assert_eq!(table[HEAD + 55..HEAD + 66], [200, 2, 1, 2, 0, 0, 0, 0, 0, 0, 3]);
    assert_eq!(encode(&example())[HEAD + 60..HEAD + 72], [0, 200, 2, 1, 2, 0, 0, 0, 0, 0, 0, 3]);
}

/// The same set and the same answers; neither reader takes the other's tables.
#[test]
fn read_by_both() {
    let table = old::encode(&example()).expect("labels below 256");
    let wide = widened(&table);
    assert_eq!(old::intake(&table), Ok(example()));
    assert_eq!(intake(&wide), Ok(example()));
    assert_eq!(wide, encode(&example()));
    assert_eq!((intake(&table), old::intake(&wide)), (Err(5), Err(5)));
    assert_eq!(ask(&leaf(1).listing(), &table), Answer::Refused(5));
    for label in [1, 2, 200, 255, 256, 65_535] {
        for (a, b) in [(1, 1), (1, 255), (255, 255), (1, 256), (511, 1)] {
            let tree = Tree::new(label, vec![leaf(a), leaf(b)]);
            let answer = old::intake(&table).map(|automaton| asked(&tree, &automaton));
            assert_eq!(answer, Ok(ask(&tree.listing(), &wide)));
        }
    }
    assert_eq!(total(&wide), Answer::Total(4));
}

/// Every byte of an old table in turn: both readers see the same fault, or none.
#[test]
fn damaged() {
    let table = old::encode(&example()).expect("labels below 256");
    for at in (0..HEAD + 11 * 8).chain([old::TABLE_BYTES - 1]) {
        for byte in [0, 1, 2, 3, 4, 9, 200, 201, 255] {
            let mut other = table.clone();
            other[at] = byte;
            assert_eq!(old::intake(&other), intake(&widened(&other)), "byte {at} is {byte}");
        }
    }
}

#[test]
fn lengths() {
    let table = old::encode(&example()).expect("labels below 256");
    assert_eq!(old::intake(&table[1..]), Err(5));
    assert_eq!(old::intake(&[&table[..], &[0]].concat()), Err(5));
    let (mut wide, mut scratch) = (widened(&table), vec![7; old::SCRATCH_BYTES]);
    assert_eq!(add(&leaf(9).listing(), &mut wide, &mut scratch), Answer::Refused(6));
    assert_eq!(remove(&leaf(9).listing(), &mut table.clone(), &mut scratch), Answer::Refused(5));
    assert!(scratch.iter().all(|&byte| byte == 7));
    assert_eq!(tree::read(&[9, 0]), Err(1));
}

/// A label above 255 has no old table.
#[test]
fn too_wide() {
    let mut automaton = example();
    automaton.transitions.insert(Key::new(256, vec![2]), 3);
    assert_eq!(old::encode(&automaton), None);
    assert_eq!(intake(&encode(&automaton)), Ok(automaton));
}
