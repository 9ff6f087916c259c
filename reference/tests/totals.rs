//! Order 2: how many trees a table approves, by sums and products of exact numbers and by all trees listed.

use reference::automaton::{Automaton, Key};
use reference::natural::Natural;
use reference::table::{encode, intake, SCRATCH_BYTES, TABLE_BYTES};
use reference::total::{exact, listed};
use reference::tree::Tree;
use reference::{add, total, Answer};
use std::collections::BTreeMap;

const NODES: usize = 5_000;

/// A table that passes intake: its transitions by label, arguments and output, and its accepting states.
fn table(states: u8, accepting: &[u8], lines: &[(u16, &[u8], u8)]) -> Vec<u8> {
    let classes = (1..=states).map(|q| accepting.contains(&q)).collect();
    let transitions = lines.iter().map(|&(label, args, out)| (Key::new(label, args.to_vec()), out)).collect();
    let automaton = Automaton { accepting: classes, transitions }.renumbered();
    let table = encode(&automaton);
    assert_eq!(intake(&table), Ok(automaton));
    table
}

/// Leaves 1 and 2 in one state, and label 3 over two equal states again and again: 2, 4, 16, 256 and so on.
fn squares(levels: u8, more: &[(u16, &[u8], u8)]) -> Vec<u8> {
    let pairs: Vec<[u8; 2]> = (1..=levels).map(|q| [q, q]).collect();
    let mut lines: Vec<(u16, &[u8], u8)> = vec![(1, &[], 1), (2, &[], 1)];
    lines.extend(pairs.iter().zip(2..).map(|(pair, out)| (3, &pair[..], out)));
    lines.extend(more);
    table(levels + 1, &[levels + 1], &lines)
}

#[test]
fn samples() {
    assert_eq!(total(&[0; TABLE_BYTES]), Answer::Total(0));
    assert_eq!(total(&[0; TABLE_BYTES - 1]), Answer::Refused(5));
    let (mut book, mut scratch) = (vec![0; TABLE_BYTES], vec![0; SCRATCH_BYTES]);
    for (n, (a, b)) in [(1, 1), (1, 2), (2, 1), (2, 2)].into_iter().enumerate() {
        add(&Tree::new(1, vec![Tree::leaf(a), Tree::leaf(b)]).listing(), &mut book, &mut scratch);
        assert_eq!(total(&book), Answer::Total(n as u64 + 1));
    }
    add(&Tree::leaf(1).listing(), &mut book, &mut scratch);
    assert_eq!(total(&book), Answer::Total(5));
    book[1] = 2;
    assert_eq!(total(&book), Answer::Refused(7));
    assert_eq!((Answer::Refused(7).left(9), Answer::Over.left(9), Answer::Total(5).left(9)), (9, 9, 5));
    assert_eq!((Answer::Over.packed(), Answer::Total(5).packed()), (256, 0));
}

/// State k has 2^(k - 1) trees, up to state 64. Label 4 over the last so many of them: these powers of two added up.
fn powers(last: u8) -> Vec<u8> {
    let below: Vec<[u8; 1]> = (1..=64).map(|q| [q]).collect();
    let mut lines: Vec<(u16, &[u8], u8)> = vec![(1, &[], 1)];
    for (q, args) in (1..64).zip(&below) {
        lines.extend([(2, &args[..], q + 1), (3, &args[..], q + 1)]);
    }
    lines.extend(below.iter().skip(64 - usize::from(last)).map(|args| (4, &args[..], 65)));
    table(65, &[65], &lines)
}

/// A square six times over two leaves is 2^64, and one leaf more is 2^64 + 1.
#[test]
fn near_the_limit() {
    let number = |table: &[u8]| exact(&intake(table).unwrap());
    let (full, fuller) = (squares(6, &[]), squares(6, &[(9, &[], 7)]));
    assert_eq!(number(&full), shifted(&Natural::new(1)));
    assert_eq!(number(&fuller), shifted(&Natural::new(1)).plus(&Natural::new(1)));
    assert_eq!((total(&full), total(&fuller)), (Answer::Over, Answer::Over));
    assert_eq!(total(&squares(199, &[])), Answer::Over);
    assert_eq!(total(&squares(5, &[])), Answer::Total(1 << 32));
    assert_eq!(total(&powers(64)), Answer::Total(u64::MAX));
    assert_eq!(total(&powers(63)), Answer::Total(u64::MAX - 1));
    assert_eq!(total(&powers(1)), Answer::Total(1 << 63));
}

/// Trees that run to a state of class 1 count, also if that state stands below others; trees of class 0 do not.
#[test]
fn classes() {
    let lines: [(u16, &[u8], u8); 4] = [(1, &[], 1), (2, &[], 1), (3, &[1, 1, 1], 2), (4, &[2, 1], 3)];
    assert_eq!(total(&table(3, &[3], &lines)), Answer::Total(16));
    assert_eq!(total(&table(3, &[2, 3], &lines)), Answer::Total(24));
    assert_eq!(total(&table(3, &[1, 2, 3], &lines)), Answer::Total(26));
}

#[test]
fn listed_trees() {
    let four = intake(&squares(2, &[(9, &[], 3)])).unwrap();
    let trees = listed(&four, NODES).unwrap();
    assert_eq!((trees.len(), exact(&four)), (17, Natural::new(17)));
    assert!(trees.iter().all(|tree| four.accepts(four.run(tree))));
    assert_eq!(listed(&intake(&squares(5, &[])).unwrap(), NODES), None);
    let empty = Automaton { accepting: vec![], transitions: BTreeMap::new() };
    assert_eq!(listed(&empty, 0).map(|trees| trees.len()), Some(0));
}

#[test]
fn naturals() {
    let numbers = [0, 1, 2, 9, 1 << 31, (1 << 32) - 1, 1 << 32, (1 << 32) + 1, u64::MAX - 1, u64::MAX];
    let number = |wide: u128| Natural::new(wide as u64).plus(&shifted(&Natural::new((wide >> 64) as u64)));
    for x in numbers {
        for y in numbers {
            let (a, b) = (Natural::new(x), Natural::new(y));
            assert_eq!(a.plus(&b), number(u128::from(x) + u128::from(y)));
            assert_eq!(a.times(&b), number(u128::from(x) * u128::from(y)));
            assert_eq!(a.plus(&b).small(), x.checked_add(y));
            assert_eq!(a.times(&b).small(), x.checked_mul(y));
        }
    }
    let squared = (0..5).fold(Natural::new(u64::MAX), |number, _| number.times(&number));
    assert_ne!(squared, Natural::Beyond);
    assert_eq!(squared.times(&Natural::new(2)), Natural::Beyond);
    assert_eq!(Natural::Beyond.times(&Natural::new(0)), Natural::new(0));
    assert_eq!(Natural::Beyond.plus(&Natural::new(0)).small(), None);
}

/// 2^64 times the number.
fn shifted(number: &Natural) -> Natural {
    let word = Natural::new(1 << 32);
    number.times(&word).times(&word)
}
