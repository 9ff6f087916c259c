//! Random calls of library and prototype on the same bytes. A prototype that answers otherwise is no yardstick.

use crate::calls::{changing, reading, ADD, ASK, INTAKE, REMOVE};
use differential::dice::Dice;
use differential::series::next_tree;
use reference::automaton::Automaton;
use reference::table::{encode, intake};
use reference::tree::Tree;

const SERIES: usize = 120;
const CALLS: usize = 30;
const DAMAGED: usize = 20;

/// Series from the empty table, from small legal ones and from families, and damaged tables after each.
pub fn check_random_calls() {
    let mut dice = Dice::new(1);
    for i in 0..SERIES {
        dice.relabel();
        let start = match i % 4 {
            0 => Automaton::default(),
            1 => dice.families(),
            _ => small_legal(&mut dice),
        };
        let table = check_series(&mut dice, &start);
        for _ in 0..DAMAGED {
            let refusal = *dice.pick(&[5, 7, 8, 9, 10, 11, 12, 13]);
            let damaged = dice.damaged(&table, refusal);
            let leaf = Tree::leaf(dice.any_label(2)).listing();
            reading("ask", ASK, &leaf, &damaged).checked();
            changing("add", ADD, &leaf, &damaged).checked();
        }
    }
}

fn small_legal(dice: &mut Dice) -> Automaton {
    let (states, transitions) = (2 + dice.roll(20), 2 + dice.roll(80));
    let (labels, width) = (1 + dice.roll(4), 1 + dice.roll(4));
    dice.legal(states, transitions, labels, width)
}

/// Returns the table after the series.
fn check_series(dice: &mut Dice, start: &Automaton) -> Vec<u8> {
    let mut table = encode(start);
    let mut used = vec![Tree::leaf(dice.label(1))];
    for _ in 0..CALLS {
        let automaton = intake(&table).expect("a call leaves a table that passes intake");
        let tree = next_tree(dice, &automaton, &used);
        let listing = if dice.roll(25) == 0 { dice.damaged_listing(&tree.listing()) } else { tree.listing() };
        reading("ask", ASK, &listing, &table).checked();
        reading("intake", INTAKE, &listing, &table).checked();
        let (name, calls) = if dice.roll(3) == 0 { ("remove", REMOVE) } else { ("add", ADD) };
        table = changing(name, calls, &listing, &table).checked().1;
        used.push(tree);
    }
    table
}
