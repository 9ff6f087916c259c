//! The new table: numbers and order found, looked at and written.

use crate::format::{ARGS_AT, ARITY_AT, HEAD_BYTES, MAX_STATES, NAMES, OUT_AT, WIDTH};
use crate::numbering::{numbers_of, Numbers};
use crate::packed::{transition_count, transitions, Transition};
use crate::quotient::{make, Numbered, Plan};
use crate::rule::Rule;
use crate::sorting::{before, sort, Pairs};

/// Writes the new table, with room for so many transitions. Returns how many it has. Numbers are first sought from the
/// marked transitions; these are seldom too few, and all are always enough.
pub fn rebuild<const ROOM: usize>(table: &mut [u8], plan: &Plan) -> usize {
    let (mut heads, mut args) = ([0; ROOM], [0; ROOM]);
    let (mut other_heads, mut other_args) = ([0; ROOM], [0; ROOM]);
    let mut next = [0; ROOM];
    let mut pairs = Pairs { heads: &mut heads, args: &mut args };
    let mut room = Pairs { heads: &mut other_heads, args: &mut other_args };
    for few in [true, false] {
        let run = transitions(table);
        let numbers = guess(plan, run, few, &mut pairs, &mut room, &mut next);
        if numbers.given != plan.kept.count {
            continue;
        }
        let (heads, nexts) = by_number(plan, &numbers);
        let lists = Numbered { heads: &heads, nexts: &nexts, numbers: &numbers.of };
        let count = make(plan, run, false, &lists, &mut pairs);
        sort(&mut pairs, count, &mut room);
        if sound(&pairs.heads[..count], &pairs.args[..count], numbers.given) {
            write_table(table, plan, &numbers, &pairs.heads[..count], &pairs.args[..count]);
            return count;
        }
    }
    unreachable!("all transitions give the numbers of the rule")
}

fn guess(
    plan: &Plan,
    run: &[Transition],
    few: bool,
    pairs: &mut Pairs,
    room: &mut Pairs,
    next: &mut [u16],
) -> Numbers {
    let names: [u8; NAMES] = std::array::from_fn(|name| name as u8);
    let lists = Numbered { heads: &plan.kept.heads, nexts: &plan.kept.nexts, numbers: &names };
    let count = make(plan, run, few, &lists, pairs);
    numbers_of(&pairs.heads[..count], &pairs.args[..count], &plan.kept.order, next, room)
}

/// The lists of kept names, each by its numbers, so that the transitions are made nearly in their order.
fn by_number(plan: &Plan, numbers: &Numbers) -> ([u8; NAMES], [u8; NAMES]) {
    let mut names = [0; NAMES];
    for name in 1..=plan.states + plan.subtrees.count {
        names[usize::from(numbers.of[name])] = name as u8;
    }
    let (mut heads, mut nexts) = ([0; NAMES], [0; NAMES]);
    for number in (1..=numbers.given).rev() {
        let name = names[number];
        let head = &mut heads[usize::from(plan.kept.owners[usize::from(name)])];
        nexts[usize::from(name)] = *head;
        *head = name;
    }
    heads[0] = 0;
    (heads, nexts)
}

/// Whether the transitions rise and number their outputs by the rule.
fn sound(heads: &[u64], args: &[u64], states: usize) -> bool {
    let mut rule = Rule::new(states);
    for i in 0..heads.len() {
        if i > 0 && !before(heads[i - 1], args[i - 1], heads[i], args[i]) {
            return false;
        }
        let out = (heads[i] & 255) as usize;
        if rule.below(out) {
            continue;
        }
        let top = usize::from(args[i].to_be_bytes().iter().fold(0, |top, &byte| top.max(byte)));
        if rule.is_news(top, out) && !rule.note(top, out) {
            return false;
        }
    }
    rule.complete()
}

fn write_table(table: &mut [u8], plan: &Plan, numbers: &Numbers, heads: &[u64], args: &[u64]) {
    let (before, count) = (transition_count(table), heads.len());
    table[1..=MAX_STATES].fill(0);
    for name in 1..=plan.states + plan.subtrees.count {
        let number = usize::from(numbers.of[name]);
        if number != 0 {
            table[number] = plan.kept.classes[name];
        }
    }
    table[0] = numbers.given as u8;
    table[201] = (count / 256) as u8;
    table[202] = (count % 256) as u8;
    let run: &mut [Transition] = table[HEAD_BYTES..].as_chunks_mut().0;
    for (transition, (&head, &args)) in run.iter_mut().zip(heads.iter().zip(args)) {
        transition[0] = (head >> 16) as u8;
        transition[1] = (head >> 8) as u8;
        transition[ARITY_AT] = (head >> 24) as u8;
        transition[ARGS_AT..OUT_AT].copy_from_slice(&args.to_be_bytes());
        transition[OUT_AT] = head as u8;
    }
    if count < before {
        run[count..before].fill([0; WIDTH]);
    }
}
