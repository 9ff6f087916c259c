//! The calls of library and prototype with the bytes that they get: what they answer, and what they cost.

use crate::measure::{in_turns, least, least_after, Times};
use differential::library;
use reference::table::SCRATCH_BYTES;
use reference::tree::LISTING_BYTES;
use std::hint::black_box;

/// One call of both on the same bytes. The prototype has only the calls of document 01.
pub struct Measured {
    pub call: &'static str,
    pub answer: u64,
    pub times: Times,
}

impl Measured {
    /// The answer in words, both times and their ratio.
    pub fn cell(&self) -> String {
        let answer = match (self.call, self.answer & 255, self.answer >> 8 & 255) {
            ("rank", 0, 1) => "a number".to_string(),
            ("unrank", 0, _) => "a tree".to_string(),
            ("total", 0, over) => if over == 1 { "over" } else { "a number" }.to_string(),
            (_, 0, 1) => "approved".to_string(),
            ("ask" | "rank", 0, 2) => "not part".to_string(),
            ("ask" | "rank", 0, _) => format!("not {}", self.answer >> 16),
            (_, 0, _) => format!("{} {}", self.answer >> 16 & 65535, self.answer >> 32),
            (_, refusal, _) => format!("refused {refusal}"),
        };
        let compared = |time: f64| format!(" / {time:.2} = {:.2}", self.times.library / time);
        format!("{answer}: {:.2}{}", self.times.library, self.times.prototype.map_or(String::new(), compared))
    }

    /// The time of the library, and in brackets the ratio.
    pub fn short_cell(&self) -> String {
        let compared = |ratio: f64| format!(" ({ratio:.2})");
        format!("{:.1}{}", self.times.library, self.ratio().map_or(String::new(), compared))
    }

    pub fn ratio(&self) -> Option<f64> {
        self.times.prototype.map(|time| self.times.library / time)
    }
}

type Read = fn(&[u8], &[u8]) -> u64;
type Change = fn(&[u8], &mut [u8], &mut [u8]) -> u64;
type Reading = (Read, Option<Read>);
type Changing = (Change, Change);

pub const ASK: Reading = (library::ask, Some(prototype::ask));
pub const INTAKE: Reading = (|_, table| library::intake(table), Some(|_, table| prototype::intake(table)));
pub const TOTAL: Reading = (|_, table| library::total(table, &mut 0), None);
pub const RANK: Reading = (|tree, table| library::rank(tree, table, &mut 0), None);
/// Gets the number as bytes in the place of a tree.
pub const UNRANK: Reading = (|number, table| library::unrank(number_of(number), table, &mut [0; LISTING_BYTES]), None);
pub const ADD: Changing = (library::add, prototype::add);
pub const REMOVE: Changing = (library::remove, prototype::remove);

fn number_of(bytes: &[u8]) -> u64 {
    u64::from_le_bytes(bytes.try_into().expect("eight bytes"))
}

enum Kind {
    Reads(Reading),
    Changes(Changing),
}

/// A call with the bytes that it gets.
pub struct Call {
    pub name: &'static str,
    kind: Kind,
    tree: Vec<u8>,
    table: Vec<u8>,
}

pub fn reading(name: &'static str, calls: Reading, tree: &[u8], table: &[u8]) -> Call {
    Call { name, kind: Kind::Reads(calls), tree: tree.to_vec(), table: table.to_vec() }
}

pub fn changing(name: &'static str, calls: Changing, tree: &[u8], table: &[u8]) -> Call {
    Call { name, kind: Kind::Changes(calls), tree: tree.to_vec(), table: table.to_vec() }
}

impl Call {
    /// The answer, and table and scratch after the call.
    fn outcome(&self, run: Change) -> (u64, Vec<u8>, Vec<u8>) {
        let (mut table, mut scratch) = (self.table.clone(), vec![7; SCRATCH_BYTES]);
        (run(&self.tree, &mut table, &mut scratch), table, scratch)
    }

    /// The answer of the library and the table after it. The prototype must do the same.
    pub fn checked(&self) -> (u64, Vec<u8>) {
        let (tree, table) = (&self.tree, &self.table);
        match self.kind {
            Kind::Reads((library, prototype)) => {
                let answer = library(tree, table);
                let same = prototype.is_none_or(|run| run(tree, table) == answer);
                assert!(same, "{}: the prototype answers something else", self.name);
                (answer, self.table.clone())
            }
            Kind::Changes((library, prototype)) => {
                let (answer, table, scratch) = self.outcome(library);
                let same = self.outcome(prototype) == (answer, table.clone(), scratch);
                assert!(same, "{}: the prototype leaves another answer, table or scratch", self.name);
                (answer, table)
            }
        }
    }

    pub fn times(&self) -> Times {
        let read = |run: Read| least(|| run(black_box(&self.tree), black_box(&self.table)));
        let change = |run: Change| {
            let mut lent = (self.table.clone(), vec![7; SCRATCH_BYTES]);
            let ready = |lent: &mut (Vec<u8>, Vec<u8>)| lent.0.copy_from_slice(&self.table);
            least_after(&mut lent, ready, |(table, scratch)| run(&self.tree, table, scratch))
        };
        match self.kind {
            Kind::Reads((library, prototype)) => in_turns(|| read(library), prototype.map(|run| move || read(run))),
            Kind::Changes((library, prototype)) => in_turns(|| change(library), Some(|| change(prototype))),
        }
    }
}
