//! Order 2: tables built so that a chosen number of trees is approved, around 2^64 and far above it, and random legal
//! tables whose trees are all listed if they are few. The chosen number, the exact sum and the trees listed must agree.

use crate::automata::legal;
use crate::dice::{Dice, LAST};
use crate::tally::{Call, Tally};
use reference::automaton::{Automaton, Key};
use reference::natural::Natural;
use reference::table::{encode, intake, SCRATCH_BYTES};
use reference::total::{exact, listed};
use reference::tree::Tree;
use std::collections::BTreeMap;

pub const NEAR: u128 = 1 << 64;
const TABLES: usize = 300;
const LISTED: usize = 1_500;
const NODES: usize = 3_000;
const POWERS: usize = 63;

/// A sum of powers of two. State k of a chain has 2^(k - 1) trees, and a power is a product of some of them.
pub fn sum_of(dice: &mut Dice, exponents: &[usize]) -> Automaton {
    dice.relabel();
    let top = POWERS as u8 + 2;
    let mut lines = BTreeMap::from([(Key::new(dice.label(1), vec![]), 1)]);
    for state in 1..top - 1 {
        lines.insert(Key::new(dice.label(2), vec![state]), state + 1);
        lines.insert(Key::new(dice.label(3), vec![state]), state + 1);
    }
    for (label, &exponent) in (4..).zip(exponents) {
        lines.insert(Key::new(dice.label(label), factors(dice, exponent)), top);
    }
    legal(&Automaton { accepting: (1..=top).map(|state| state == top).collect(), transitions: lines })
}

/// States of the chain whose numbers of trees multiply to 2^exponent; often the same state twice.
fn factors(dice: &mut Dice, exponent: usize) -> Vec<u8> {
    let most = exponent.min(POWERS);
    let first = if exponent <= POWERS && dice.roll(2) == 0 { exponent } else { (exponent / 2).min(most) };
    let mut states = vec![1 + first as u8];
    let mut left = exponent - first;
    while left > 0 {
        let next = if states.len() < 5 { 1 + dice.roll(left.min(POWERS)) } else { left.min(POWERS) };
        let next = if next < first && left >= first && dice.roll(2) == 0 { first } else { next };
        states.push(1 + next as u8);
        left -= next;
    }
    states
}

/// The exponents of the number in base 2, some of them as twice the one below.
pub fn exponents(dice: &mut Dice, number: u128) -> Vec<usize> {
    let mut exponents: Vec<usize> = (0..128).filter(|&bit| number >> bit & 1 == 1).collect();
    for _ in 0..dice.roll(4) {
        let at = dice.roll(exponents.len());
        if exponents[at] > 0 {
            exponents[at] -= 1;
            exponents.push(exponents[at]);
        }
    }
    exponents
}

fn natural(number: u128) -> Natural {
    let word = Natural::new(1 << 32);
    Natural::new((number >> 64) as u64).times(&word).times(&word).plus(&Natural::new(number as u64))
}

/// A table of so many trees, and the table with one tree more and with it taken out again.
fn chosen(dice: &mut Dice, tally: &mut Tally, number: u128) {
    let exponents = exponents(dice, number);
    let automaton = sum_of(dice, &exponents);
    tally.expect(exact(&automaton) == natural(number), || format!("a table of {number} trees has another number"));
    let (mut table, leaf) = (encode(&automaton), Tree::leaf(dice.label(LAST)).listing());
    tally.expect(intake(&table).is_ok(), || format!("a table of {number} trees is refused"));
    tally.total(&table);
    for call in [Call::Add, Call::Remove] {
        tally.change(call, &leaf, &mut table, &dice.noise(SCRATCH_BYTES));
        tally.total(&table);
    }
}

/// Two leaves, and again and again one label over as many equal states: far above 2^64 after a few levels.
fn powers_of_powers(tally: &mut Tally, levels: u8, places: usize) {
    let mut lines = BTreeMap::from([(Key::new(1, vec![]), 1), (Key::new(2, vec![]), 1)]);
    lines.extend((1..levels).map(|state| (Key::new(3, vec![state; places]), state + 1)));
    let accepting = (1..=levels).map(|state| state == levels).collect();
    let table = encode(&legal(&Automaton { accepting, transitions: lines }));
    tally.expect(intake(&table).is_ok(), || format!("{levels} levels of {places} places are refused"));
    tally.total(&table);
}

/// Random legal tables; how many had their trees listed.
fn small(dice: &mut Dice, tally: &mut Tally) -> usize {
    let mut all = 0;
    for _ in 0..LISTED {
        let (states, transitions, width) = (2 + dice.roll(8), 2 + dice.roll(24), 1 + dice.roll(4));
        dice.relabel();
        let automaton = dice.legal(states, transitions, 4, width);
        tally.total(&encode(&automaton));
        if let Some(trees) = listed(&automaton, NODES) {
            all += 1;
            let number = Natural::new(trees.len() as u64);
            tally.expect(exact(&automaton) == number, || format!("{} trees listed of {automaton:?}", trees.len()));
        }
    }
    all
}

pub fn totals(dice: &mut Dice, tally: &mut Tally) {
    for near in [NEAR - 2, NEAR - 1, NEAR, NEAR + 1] {
        for _ in 0..TABLES / 20 {
            chosen(dice, tally, near);
        }
    }
    for _ in 0..TABLES {
        let bits = 1 + dice.roll(80);
        let number = 1 + (dice.roll(usize::MAX) as u128 * dice.roll(usize::MAX) as u128 >> (128 - bits));
        chosen(dice, tally, number);
    }
    for levels in [1, 2, 6, 7, 8, 20, 200] {
        for places in 1..=8 {
            powers_of_powers(tally, levels, places);
        }
    }
    let all = small(dice, tally);
    tally.expect(all > 0, || "no table had its trees listed".to_string());
    println!("{all} tables with all trees listed");
}
