//! A second Scalebench, written from the paper (split, clone and local minimisation) and from document 01's numbering,
//! layout and refusals. It shares nothing with the proved one and is compared with it, byte for byte. Module old reads
//! books from before order 5.

pub mod automaton;
pub mod natural;
pub mod old;
pub mod serial;
pub mod table;
pub mod text;
pub mod total;
pub mod tree;

use automaton::{Automaton, TooMany};
use table::{encode, intake, MAX_PRODUCT, MAX_STATES, MAX_TRANSITIONS, SCRATCH_BYTES, TABLE_BYTES};
use tree::{Tree, LISTING_BYTES};

/// What a call answers.
#[derive(Clone, Copy, Debug, PartialEq, Eq)]
pub enum Answer {
    Approved,
    /// Not approved, but part of an approved tree.
    NotPart,
    /// Not approved, and the part at this place of the listing, counted from 1, stops the tree.
    NotAt(usize),
    Counts { states: usize, transitions: usize },
    /// So many trees are approved.
    Total(u64),
    /// More trees are approved than 64 bits count.
    Over,
    /// The tree is approved and has this number.
    Number(u64),
    Done,
    Refused(u8),
}

impl Answer {
    /// The number that the C interface returns.
    pub fn packed(self) -> u64 {
        match self {
            Answer::Approved => 256,
            Answer::NotPart => 512,
            Answer::NotAt(place) => 65_536 * place as u64,
            Answer::Counts { states, transitions } => 65_536 * states as u64 + 4_294_967_296 * transitions as u64,
            Answer::Total(_) | Answer::Done => 0,
            Answer::Over | Answer::Number(_) => 256,
            Answer::Refused(number) => u64::from(number),
        }
    }

    /// What the C interface leaves in a number that was lent with this in it.
    pub fn left(self, before: u64) -> u64 {
        if let Answer::Total(number) | Answer::Number(number) = self { number } else { before }
    }
}

fn counts(automaton: &Automaton) -> Answer {
    Answer::Counts { states: automaton.accepting.len(), transitions: automaton.transitions.len() }
}

/// The tree and the automaton of a call that gets both, or the first of 1 to 5 and 7 to 13.
fn taken(listing: &[u8], table: &[u8]) -> Result<(Tree, Automaton), u8> {
    Ok((tree::read(listing)?, intake(table)?))
}

/// What ask answers, from the automaton of a table.
pub fn asked(tree: &Tree, automaton: &Automaton) -> Answer {
    match automaton.run(tree) {
        0 => Answer::NotAt(automaton.stop(tree)),
        state if automaton.accepts(state) => Answer::Approved,
        _ => Answer::NotPart,
    }
}

pub fn ask(listing: &[u8], table: &[u8]) -> Answer {
    match taken(listing, table) {
        Err(number) => Answer::Refused(number),
        Ok((tree, automaton)) => asked(&tree, &automaton),
    }
}

pub fn take_in(table: &[u8]) -> Answer {
    match intake(table) {
        Err(number) => Answer::Refused(number),
        Ok(automaton) => counts(&automaton),
    }
}

pub fn total(table: &[u8]) -> Answer {
    match intake(table) {
        Err(number) => Answer::Refused(number),
        Ok(automaton) => total::exact(&automaton).small().map_or(Answer::Over, Answer::Total),
    }
}

/// The number of an approved tree.
pub fn rank(listing: &[u8], table: &[u8]) -> Answer {
    let (tree, automaton) = match taken(listing, table) {
        Err(number) => return Answer::Refused(number),
        Ok(both) => both,
    };
    match asked(&tree, &automaton) {
        Answer::Approved if total::exact(&automaton).small().is_none() => Answer::Refused(18),
        Answer::Approved => {
            Answer::Number(serial::number(&automaton, &tree).small().expect("a number is below the total"))
        }
        other => other,
    }
}

/// The tree of a number, listed with zeros after it.
pub fn unrank(number: u64, table: &[u8], listing: &mut [u8]) -> Answer {
    match tree_of(number, table, listing.len()) {
        Err(refusal) => Answer::Refused(refusal),
        Ok(tree) => {
            let bytes = tree.listing();
            listing.fill(0);
            listing[..bytes.len()].copy_from_slice(&bytes);
            Answer::Done
        }
    }
}

fn tree_of(number: u64, table: &[u8], listing: usize) -> Result<Tree, u8> {
    if table.len() != TABLE_BYTES {
        return Err(5);
    }
    if listing != LISTING_BYTES {
        return Err(6);
    }
    let automaton = intake(table)?;
    match total::exact(&automaton).small() {
        None => Err(18),
        Some(total) if number >= total => Err(19),
        Some(_) => serial::tree(&automaton, number).ok_or(20),
    }
}

pub fn add(listing: &[u8], table: &mut [u8], scratch: &mut [u8]) -> Answer {
    change(listing, table, scratch, true)
}

pub fn remove(listing: &[u8], table: &mut [u8], scratch: &mut [u8]) -> Answer {
    change(listing, table, scratch, false)
}

fn change(listing: &[u8], table: &mut [u8], scratch: &mut [u8], add: bool) -> Answer {
    match changed(listing, table, scratch.len(), add) {
        Err(number) => {
            if number >= 16 {
                scratch.fill(0);
            }
            Answer::Refused(number)
        }
        Ok(automaton) => {
            table.copy_from_slice(&encode(&automaton));
            scratch.fill(0);
            counts(&automaton)
        }
    }
}

fn changed(listing: &[u8], table: &[u8], scratch: usize, add: bool) -> Result<Automaton, u8> {
    let tree = tree::read(listing)?;
    if table.len() != TABLE_BYTES {
        return Err(5);
    }
    if scratch != SCRATCH_BYTES {
        return Err(6);
    }
    let automaton = intake(table)?;
    if automaton.accepts(automaton.run(&tree)) == add {
        return Err(if add { 14 } else { 15 });
    }
    match automaton.changed(&tree, add, MAX_PRODUCT) {
        Err(TooMany) => Err(16),
        Ok(new) if new.accepting.len() > MAX_STATES || new.transitions.len() > MAX_TRANSITIONS => Err(17),
        Ok(new) => Ok(new),
    }
}
