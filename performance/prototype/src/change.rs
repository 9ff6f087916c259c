//! Add and remove. Neither the product nor its minimisation is built: which subtrees are equivalent to states or to
//! each other, and how many states and transitions there will be, is read off the table and the distinct subtrees.

use crate::alike::Known;
use crate::check::Notes;
use crate::format::{MAX_PRODUCT, MAX_STATES, MAX_TRANSITIONS, NAMES};
use crate::hints::mark_hints;
use crate::kept::{keep, sums};
use crate::naming::{classes_of, name_all};
use crate::open::{open_states, places};
use crate::packed::transitions;
use crate::quotient::Plan;
use crate::subtrees::{collect, Subtrees};
use crate::writing::rebuild;

/// Changes with few transitions use small arrays, because every array is filled with zeros first.
const SMALL: usize = 64;

pub struct Counts {
    pub states: usize,
    pub transitions: usize,
}

/// Puts the tree in or takes it out, or returns the first of refusals 14 to 17. The table has passed its check.
pub fn change(
    tree: &[u8],
    table: &mut [u8],
    scratch: &mut [u8],
    notes: &Notes,
    inserting: bool,
) -> Result<Counts, u8> {
    let subtrees = collect(tree, transitions(table));
    if accepted(table, &subtrees) == inserting {
        return Err(if inserting { 14 } else { 15 });
    }
    scratch.fill(0);
    put(table, &subtrees, notes, inserting)
}

fn accepted(table: &[u8], subtrees: &Subtrees) -> bool {
    let state = usize::from(subtrees.states[subtrees.count - 1]);
    state != 0 && table[state] == 1
}

fn put(table: &mut [u8], subtrees: &Subtrees, notes: &Notes, inserting: bool) -> Result<Counts, u8> {
    let (run, states) = (transitions(table), usize::from(table[0]));
    let mut places = places(subtrees);
    mark_hints(run, states, &notes.firsts, &mut places.marks);
    let open = open_states(run, states, subtrees, &places);
    let mut counts = [1; NAMES];
    for q in 1..=states {
        counts[q] = places.at[q] + open[q];
    }
    let known = Known { run, states, counts: &counts, prints: &notes.prints };
    let classes = classes_of(table, subtrees, inserting);
    let names = name_all(table, &known, subtrees, &classes, &open);
    let kept = keep(table, subtrees, &classes, &open, &names);
    let (product, most) = sums(run, states, subtrees, &names, &counts, &kept);
    if product + places.lost > MAX_PRODUCT {
        return Err(16);
    }
    if kept.count > MAX_STATES || most > MAX_TRANSITIONS as u64 {
        return Err(17);
    }
    let plan = Plan { states, subtrees, names: &names, marks: &places.marks, kept: &kept };
    let transitions =
        if most <= SMALL as u64 { rebuild::<SMALL>(table, &plan) } else { rebuild::<MAX_TRANSITIONS>(table, &plan) };
    Ok(Counts { states: kept.count, transitions })
}
