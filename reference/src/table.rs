//! The table's layout, and refusals 5 and 7 to 13 by the words of document 01.

use crate::automaton::{Automaton, Key};
use std::collections::{BTreeMap, BTreeSet};

pub const TABLE_BYTES: usize = 12_491;
pub const SCRATCH_BYTES: usize = 36_864;
pub const MAX_STATES: usize = 200;
pub const MAX_TRANSITIONS: usize = 1_024;
pub const MAX_PRODUCT: usize = 3_072;
pub const HEAD: usize = 203;
/// The bytes of a label, high byte first, and of a line: label, child count, eight arguments, output.
pub const LABEL_BYTES: usize = 2;
pub const WIDTH: usize = LABEL_BYTES + 10;

/// The automaton that a table holds, or the number of the first condition that the table breaks.
pub fn intake(table: &[u8]) -> Result<Automaton, u8> {
    if table.len() != TABLE_BYTES {
        return Err(5);
    }
    accepted(fields(table, LABEL_BYTES)?)
}

/// Refusals 9 to 13.
pub(crate) fn accepted(automaton: Automaton) -> Result<Automaton, u8> {
    if !every_state(&automaton, &accessible(&automaton)) {
        return Err(9);
    }
    if !every_state(&automaton, &useful(&automaton)) {
        return Err(10);
    }
    if comes_back(&automaton) {
        return Err(11);
    }
    if some_alike(&automaton) {
        return Err(12);
    }
    if automaton.renumbered() != automaton {
        return Err(13);
    }
    Ok(automaton)
}

/// Refusals 7 and 8, of a table whose labels have so many bytes.
pub(crate) fn fields(table: &[u8], label_bytes: usize) -> Result<Automaton, u8> {
    let states = table[0] as usize;
    if states > MAX_STATES {
        return Err(7);
    }
    for q in 1..=MAX_STATES {
        if table[q] > u8::from(q <= states) {
            return Err(7);
        }
    }
    let count = usize::from(table[201]) * 256 + usize::from(table[202]);
    if count > MAX_TRANSITIONS {
        return Err(7);
    }
    let state = |byte: u8| (1..=states).contains(&(byte as usize));
    let mut lines = Vec::with_capacity(count);
    for (i, line) in table[HEAD..].chunks_exact(label_bytes + 10).enumerate() {
        if i >= count {
            if line.iter().any(|&byte| byte != 0) {
                return Err(7);
            }
            continue;
        }
        let (label, rest) = line.split_at(label_bytes);
        let label = label.iter().fold(0, |number, &byte| 256 * number + u16::from(byte));
        let (arity, out) = (rest[0] as usize, rest[9]);
        if label == 0 || arity > 8 || !state(out) {
            return Err(7);
        }
        let (args, after) = rest[1..9].split_at(arity);
        if !args.iter().all(|&a| state(a)) || after.iter().any(|&a| a != 0) {
            return Err(7);
        }
        lines.push((Key { arity, label, args: args.to_vec() }, out));
    }
    if lines.windows(2).any(|pair| pair[0].0 >= pair[1].0) {
        return Err(8);
    }
    Ok(Automaton {
        accepting: (1..=states).map(|q| table[q] == 1).collect(),
        transitions: lines.into_iter().collect(),
    })
}

/// The table of an automaton that fits one.
pub fn encode(automaton: &Automaton) -> Vec<u8> {
    encode_with(automaton, LABEL_BYTES)
}

/// The table with labels of so many bytes, which hold all of them.
pub(crate) fn encode_with(automaton: &Automaton, label_bytes: usize) -> Vec<u8> {
    let width = label_bytes + 10;
    let mut table = vec![0; HEAD + width * MAX_TRANSITIONS];
    table[0] = automaton.accepting.len() as u8;
    for (i, &accepting) in automaton.accepting.iter().enumerate() {
        table[1 + i] = u8::from(accepting);
    }
    let count = automaton.transitions.len();
    table[201] = (count / 256) as u8;
    table[202] = (count % 256) as u8;
    for (i, (key, &out)) in automaton.transitions.iter().enumerate() {
        let line = &mut table[HEAD + width * i..HEAD + width * (i + 1)];
        let (label, rest) = line.split_at_mut(label_bytes);
        label.copy_from_slice(&key.label.to_be_bytes()[2 - label_bytes..]);
        rest[0] = key.arity as u8;
        rest[1..1 + key.arity].copy_from_slice(&key.args);
        rest[9] = out;
    }
    table
}

fn every_state(automaton: &Automaton, marked: &BTreeSet<u8>) -> bool {
    (1..=automaton.accepting.len()).all(|q| marked.contains(&(q as u8)))
}

/// The states that some tree runs to.
fn accessible(automaton: &Automaton) -> BTreeSet<u8> {
    grow(BTreeSet::new(), |marked| {
        let ready = |key: &&Key| key.args.iter().all(|a| marked.contains(a));
        automaton.transitions.iter().filter(|(key, _)| ready(key)).map(|(_, &out)| out).collect()
    })
}

/// The states that some part of an accepted tree runs to.
fn useful(automaton: &Automaton) -> BTreeSet<u8> {
    let start = (1..=automaton.accepting.len() as u8).filter(|&q| automaton.accepts(q)).collect();
    grow(start, |marked| {
        let used = automaton.transitions.iter().filter(|(_, out)| marked.contains(out));
        used.flat_map(|(key, _)| key.args.iter().copied()).collect()
    })
}

/// Some state comes back to itself going from arguments to outputs.
fn comes_back(automaton: &Automaton) -> bool {
    (1..=automaton.accepting.len() as u8).any(|q| {
        let step = |from: &BTreeSet<u8>| -> BTreeSet<u8> {
            let reached = automaton.transitions.iter().filter(|(key, _)| key.args.iter().any(|a| from.contains(a)));
            reached.map(|(_, &out)| out).collect()
        };
        grow(step(&BTreeSet::from([q])), step).contains(&q)
    })
}

fn grow(mut marked: BTreeSet<u8>, step: impl Fn(&BTreeSet<u8>) -> BTreeSet<u8>) -> BTreeSet<u8> {
    loop {
        let before = marked.len();
        let new = step(&marked);
        marked.extend(new);
        if marked.len() == before {
            return marked;
        }
    }
}

/// Two different states are alike: the coarsest congruence (the paper's formulas 9 and 10, "no state" among
/// the states) joins two of them.
fn some_alike(automaton: &Automaton) -> bool {
    let n = automaton.accepting.len();
    let mut class: Vec<usize> = vec![0; n + 1];
    for q in 1..=n {
        class[q] = 1 + usize::from(automaton.accepting[q - 1]);
    }
    loop {
        let mut uses: Vec<BTreeSet<(u16, usize, Vec<u8>, Vec<u8>, usize)>> = vec![BTreeSet::new(); n + 1];
        for (key, &out) in &automaton.transitions {
            for (k, &a) in key.args.iter().enumerate() {
                let around = (key.args[..k].to_vec(), key.args[k + 1..].to_vec());
                uses[a as usize].insert((key.label, k, around.0, around.1, class[out as usize]));
            }
        }
        let mut groups = BTreeMap::new();
        let next: Vec<usize> = (0..=n)
            .map(|q| {
                let fresh = groups.len();
                *groups.entry((class[q], uses[q].clone())).or_insert(fresh)
            })
            .collect();
        let count = |classes: &[usize]| classes.iter().collect::<BTreeSet<_>>().len();
        if count(&next) == count(&class) {
            return count(&next) <= n;
        }
        class = next;
    }
}
