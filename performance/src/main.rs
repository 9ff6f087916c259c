//! What each call costs in the library, beside a prototype without proofs that answers the same: for each table and
//! call both times and their ratio, for each call the mean and the worst ratio, and how times grow with the table.

mod agreement;
mod calls;
mod cases;
mod measure;
mod tables;

use calls::{changing, reading, Call, Measured, ADD, ASK, INTAKE, RANK, REMOVE, TOTAL, UNRANK};
use cases::Case;
use differential::library;
use reference::table::encode;

const PASSES: usize = 5;

/// The calls. Unrank gets the number of the tree that rank gets, or 0. What was added is removed again; if the addition
/// is refused a tree of the set is removed.
fn all_calls(case: &Case) -> Vec<Call> {
    let table = encode(&case.automaton);
    let (inside, outside) = (case.inside.listing(), case.added.listing());
    let added = changing("add", ADD, &outside, &table);
    let (answer, after) = added.checked();
    let removed = match &case.removed {
        Some(tree) => changing("remove", REMOVE, &tree.listing(), &table),
        None if answer & 255 == 0 => changing("remove", REMOVE, &outside, &after),
        None => changing("remove", REMOVE, &inside, &table),
    };
    let read = |(call, calls)| reading(call, calls, &inside, &table);
    let mut number: u64 = 0;
    library::rank(&inside, &table, &mut number);
    let queries = [("ask", ASK), ("intake", INTAKE), ("total", TOTAL), ("rank", RANK)];
    let unrank = reading("unrank", UNRANK, &number.to_le_bytes(), &table);
    queries.into_iter().map(read).chain([unrank, added, removed]).collect()
}

/// The least times of each table's calls. There are several passes over all tables, so that the turns of a call are far
/// apart.
fn measured(tables: &[Vec<Call>]) -> Vec<Vec<Measured>> {
    let first = |call: &Call| Measured { call: call.name, answer: call.checked().0, times: call.times() };
    let mut rows: Vec<Vec<Measured>> = tables.iter().map(|calls| calls.iter().map(first).collect()).collect();
    for _ in 1..PASSES {
        for (measured, call) in rows.iter_mut().flatten().zip(tables.iter().flatten()) {
            measured.times = measured.times.least(call.times());
        }
    }
    rows
}

/// For each call that the prototype has: on how many tables, and the geometric mean and the worst of the ratios.
fn print_summary(cases: &[Case], rows: &[Vec<Measured>]) {
    println!("\n| call | tables | mean ratio | worst ratio | worst on |\n|---|---|---|---|---|");
    for call in ["ask", "intake", "add", "remove"] {
        let ratio = |row: &Vec<Measured>| row.iter().find(|measured| measured.call == call)?.ratio();
        let ratios: Vec<(f64, &str)> =
            cases.iter().zip(rows).filter_map(|(case, row)| Some((ratio(row)?, case.name))).collect();
        let mean = (ratios.iter().map(|(ratio, _)| ratio.ln()).sum::<f64>() / ratios.len() as f64).exp();
        let worst = ratios.iter().max_by(|one, other| one.0.total_cmp(&other.0));
        let (worst, name) = worst.expect("a table is measured");
        println!("| {call} | {} | {mean:.2} | {worst:.2} | {name} |", ratios.len());
    }
}

/// A table whose last columns are the calls.
fn print_rows(first: &str, names: &[String], rows: &[Vec<Measured>], cell: fn(&Measured) -> String) {
    let calls: Vec<&str> = rows[0].iter().map(|measured| measured.call).collect();
    println!("| {first} | {} |\n|{}", calls.join(" | "), "---|".repeat(first.split('|').count() + calls.len()));
    for (name, row) in names.iter().zip(rows) {
        let cells: Vec<String> = row.iter().map(cell).collect();
        println!("| {name} | {} |", cells.join(" | "));
    }
}

fn main() {
    agreement::check_random_calls();
    let cases = cases::all();
    let (sizes, mixed): (Vec<String>, Vec<Case>) = cases::sizes().into_iter().unzip();
    let tables: Vec<Vec<Call>> = cases.iter().chain(&mixed).map(all_calls).collect();
    tables.iter().flatten().for_each(|call| drop(call.checked()));
    let rows = measured(&tables);
    let (of_cases, of_sizes) = rows.split_at(cases.len());
    let names: Vec<String> = cases.iter().map(|case| case.name.to_string()).collect();
    print_rows("table", &names, of_cases, Measured::cell);
    print_summary(&cases, of_cases);
    println!();
    print_rows("states | transitions", &sizes, of_sizes, Measured::short_cell);
}
