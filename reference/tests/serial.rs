//! Order 4: the number of each approved tree, by all trees listed and sorted and by exact numbers, and back.

use reference::automaton::{Automaton, Key};
use reference::natural::Natural;
use reference::serial::{number, sorted, tree};
use reference::table::{encode, intake, TABLE_BYTES};
use reference::total::exact;
use reference::tree::{read, Tree, LISTING_BYTES, MAX_NODES, NODE_BYTES};
use reference::{rank, total, unrank, Answer};
use std::collections::BTreeMap;

const NODES: usize = 400_000;

/// An automaton that passes intake: its transitions by label, arguments and output, and its accepting states.
fn automaton(states: u8, accepting: &[u8], lines: &[(u16, &[u8], u8)]) -> Automaton {
    let classes = (1..=states).map(|q| accepting.contains(&q)).collect();
    let transitions = lines.iter().map(|&(label, args, out)| (Key::new(label, args.to_vec()), out)).collect();
    let automaton = Automaton { accepting: classes, transitions };
    assert_eq!(intake(&encode(&automaton)), Ok(automaton.clone()));
    automaton
}

fn leaf(label: u16) -> Tree {
    Tree::leaf(label)
}

fn over(label: u16, children: &[&Tree]) -> Tree {
    Tree::new(label, children.iter().map(|&child| child.clone()).collect())
}

/// The tree of a number through the call, in a buffer that held something else.
fn called(number: u64, table: &[u8]) -> Result<Tree, Answer> {
    let mut listing = [0xa5; LISTING_BYTES];
    match unrank(number, table, &mut listing) {
        Answer::Done => {
            let start = |nodes: usize| &listing[..NODE_BYTES * nodes];
            let tree = (1..=MAX_NODES).find_map(|nodes| read(start(nodes)).ok()).expect("a tree is listed");
            assert!(listing[NODE_BYTES * tree.nodes()..].iter().all(|&byte| byte == 0));
            Ok(tree)
        }
        refusal => {
            assert_eq!(listing, [0xa5; LISTING_BYTES]);
            Err(refusal)
        }
    }
}

/// Every number of the automaton gives its tree of the list and back.
fn all(automaton: &Automaton, trees: &[Tree]) {
    let table = encode(automaton);
    assert_eq!(total(&table), Answer::Total(trees.len() as u64));
    for (i, one) in (0..).zip(trees) {
        if one.nodes() > MAX_NODES {
            assert_eq!(called(i, &table), Err(Answer::Refused(20)));
            assert_eq!(number(automaton, one), Natural::new(i));
        } else {
            assert_eq!(called(i, &table).as_ref(), Ok(one));
            assert_eq!(rank(&one.listing(), &table), Answer::Number(i));
        }
    }
    assert_eq!(called(trees.len() as u64, &table), Err(Answer::Refused(19)));
    assert_eq!(called(u64::MAX, &table), Err(Answer::Refused(19)));
}

/// States 1 and 3 are approved, 2 is not. The order is by state, then by line, then by the first child that differs.
#[test]
fn order() {
    let lines: [(u16, &[u8], u8); 6] =
        [(1, &[], 1), (2, &[], 2), (3, &[], 2), (4, &[], 1), (1, &[2, 2], 3), (2, &[2, 1], 3)];
    let automaton = automaton(3, &[1, 3], &lines);
    let (one, two, three, four) = (leaf(1), leaf(2), leaf(3), leaf(4));
    let trees = [
        one.clone(),
        four.clone(),
        over(1, &[&two, &two]),
        over(1, &[&two, &three]),
        over(1, &[&three, &two]),
        over(1, &[&three, &three]),
        over(2, &[&two, &one]),
        over(2, &[&two, &four]),
        over(2, &[&three, &one]),
        over(2, &[&three, &four]),
    ];
    assert_eq!(sorted(&automaton, NODES).as_deref(), Some(&trees[..]));
    all(&automaton, &trees);
    let table = encode(&automaton);
    assert_eq!(rank(&two.listing(), &table), Answer::NotPart);
    assert_eq!(rank(&over(1, &[&two, &four]).listing(), &table), Answer::NotAt(1));
    assert_eq!(rank(&over(1, &[&two, &leaf(9)]).listing(), &table), Answer::NotAt(3));
}

/// The samples of order 4: states 2 and 3 are approved, 1 is not.
#[test]
fn samples() {
    let lines: [(u16, &[u8], u8); 6] =
        [(1, &[], 1), (2, &[], 1), (3, &[], 2), (4, &[1], 3), (4, &[2], 3), (5, &[1, 1], 2)];
    let automaton = automaton(3, &[2, 3], &lines);
    let (one, two) = (leaf(1), leaf(2));
    let forks = [[&one, &one], [&one, &two], [&two, &one], [&two, &two]].map(|pair| over(5, &pair));
    let second: Vec<Tree> = [leaf(3)].into_iter().chain(forks).collect();
    let third = [one, two].iter().chain(&second).map(|tree| over(4, &[tree])).collect();
    let trees = [second.clone(), third].concat();
    assert_eq!(sorted(&automaton, NODES).as_ref(), Some(&trees));
    all(&automaton, &trees);
}

/// Ten leaves in each of three states, and two labels over them: 2,000 trees, and as many that have these below a node.
#[test]
fn two_thousand() {
    let mut lines: Vec<(u16, &[u8], u8)> = (0..30).map(|i| (250 + i, &[][..], 1 + (i / 10) as u8)).collect();
    lines.extend([(1, &[4][..], 5), (256, &[1, 2, 3], 4), (511, &[3, 1, 2], 4)]);
    for accepting in [&[4, 5][..], &[5]] {
        let automaton = automaton(5, accepting, &lines);
        let trees = sorted(&automaton, NODES).expect("few trees");
        assert_eq!(trees.len(), 2_000 * accepting.len());
        all(&automaton, &trees);
    }
}

/// 2^64 - 1 trees of few nodes: 255 leaves, and over k of them as many labels as 8 choose k, for k from 1 to 8.
fn greatest(leaves_approved: bool) -> Automaton {
    let mut transitions: BTreeMap<Key, u8> = (1..=255).map(|label| (Key::new(label, vec![]), 1)).collect();
    for (places, labels) in (1..).zip([8, 28, 56, 70, 56, 28, 8, 1]) {
        transitions.extend((1..=labels).map(|label| (Key::new(label, vec![1; places]), 2)));
    }
    Automaton { accepting: vec![leaves_approved, true], transitions }
}

#[test]
fn near_the_limit() {
    let largest = greatest(false);
    let table = encode(&largest);
    assert_eq!(total(&table), Answer::Total(u64::MAX));
    assert_eq!(called(0, &table), Ok(over(1, &[&leaf(1)])));
    assert_eq!(called(256, &table), Ok(over(2, &[&leaf(2)])));
    assert_eq!(called(u64::MAX - 1, &table), Ok(Tree::new(1, vec![leaf(255); 8])));
    assert_eq!(called(u64::MAX, &table), Err(Answer::Refused(19)));
    for i in 0..500u64 {
        let number = i.wrapping_mul(0x9e37_79b9_7f4a_7c15) % u64::MAX;
        let tree = called(number, &table).expect("nine nodes at most");
        assert_eq!(rank(&tree.listing(), &table), Answer::Number(number));
    }
    let over_table = encode(&greatest(true));
    assert_eq!(total(&over_table), Answer::Over);
    for number in [0, 1, u64::MAX] {
        assert_eq!(called(number, &over_table), Err(Answer::Refused(18)));
    }
    assert_eq!(rank(&[0, 7, 0], &over_table), Answer::Refused(18));
    assert_eq!(rank(&[0, 7, 1, 0, 7, 1, 0, 7, 0], &over_table), Answer::NotAt(1));
}

/// Each state twice under the next: one tree, of 2^levels - 1 nodes.
fn doubled(levels: u8) -> Automaton {
    let pairs: Vec<[u8; 2]> = (1..levels).map(|q| [q, q]).collect();
    let mut lines: Vec<(u16, &[u8], u8)> = vec![(1, &[], 1)];
    lines.extend(pairs.iter().zip(2..).map(|(pair, out)| (1, &pair[..], out)));
    automaton(levels, &[levels], &lines)
}

#[test]
fn large_trees() {
    for levels in (1..=8).chain([64, 65, 200]) {
        let (one, fits) = (doubled(levels), levels < 6);
        let tree = tree(&one, 0);
        assert_eq!((exact(&one), tree.is_some()), (Natural::new(1), fits));
        assert!(tree.map_or(true, |tree| tree.nodes() == (1 << levels) - 1));
        assert_eq!(called(0, &encode(&one)).is_ok(), fits);
    }
    // Chains of 1 to 60 nodes: a listing holds those of up to 48.
    let chain: Vec<[u8; 1]> = (1..60).map(|q| [q]).collect();
    let mut lines: Vec<(u16, &[u8], u8)> = vec![(1, &[], 1)];
    lines.extend(chain.iter().zip(2..).map(|(below, out)| (1, &below[..], out)));
    let chains = automaton(60, &(1..=60).collect::<Vec<u8>>(), &lines);
    all(&chains, &sorted(&chains, NODES).expect("few trees"));
}

#[test]
fn refusals() {
    let mut table = encode(&doubled(3));
    assert_eq!(unrank(0, &table[1..], &mut [0; LISTING_BYTES - 1]), Answer::Refused(5));
    for length in (0..LISTING_BYTES).chain([LISTING_BYTES + 1, 252, 378]) {
        let mut listing = vec![7; length];
        assert_eq!(unrank(9, &table, &mut listing), Answer::Refused(6));
        assert!(listing.iter().all(|&byte| byte == 7));
    }
    assert_eq!(rank(&[0, 1, 0, 1], &table[1..]), Answer::Refused(1));
    assert_eq!(rank(&[0, 1, 0], &table[1..]), Answer::Refused(5));
    table[0] = 201;
    assert_eq!(unrank(9, &table, &mut [0; LISTING_BYTES - 1]), Answer::Refused(6));
    assert_eq!(called(9, &table), Err(Answer::Refused(7)));
    assert_eq!(rank(&[0, 1, 0], &table), Answer::Refused(7));
    assert_eq!(called(0, &[0; TABLE_BYTES]), Err(Answer::Refused(19)));
    assert_eq!(rank(&[0, 1, 0], &[0; TABLE_BYTES]), Answer::NotAt(1));
    assert_eq!((Answer::Number(5).packed(), Answer::Number(5).left(9)), (256, 5));
    assert_eq!((Answer::Done.packed(), Answer::Refused(20).packed(), Answer::Refused(20).left(9)), (0, 20, 9));
}
