//! Books of before order 5, for the tests of the host: `old make <LINES >BOOK` writes one, `old answer BOOK <LINES`
//! answers lines about one as the bench program prints them, `old list BOOK` prints a line for each of its trees. Fails
//! if a change or the book is refused.

use reference::automaton::Automaton;
use reference::table::{encode, intake, SCRATCH_BYTES};
use reference::text::{self, Line};
use reference::{add, asked, old, remove, serial, total, tree, Answer};
use std::io::{stdin, stdout, BufRead, Read, Write};

type Outcome<T> = Result<T, String>;

fn lines() -> Outcome<Vec<String>> {
    stdin().lock().lines().collect::<Result<_, _>>().map_err(|error| error.to_string())
}

/// The book that these changes make of the empty one.
fn made(lines: &[String]) -> Outcome<Vec<u8>> {
    let (mut table, mut scratch) = (encode(&Automaton::default()), vec![0; SCRATCH_BYTES]);
    for line in lines {
        let answer = match text::read(line.as_bytes()) {
            Line::Command(0, listing) => add(&listing, &mut table, &mut scratch),
            Line::Command(1, listing) => remove(&listing, &mut table, &mut scratch),
            _ => return Err(format!("no change: {line}")),
        };
        if let Answer::Refused(number) = answer {
            return Err(format!("refused {number}: {line}"));
        }
    }
    let automaton = intake(&table).map_err(|number| format!("refused {number}"))?;
    old::encode(&automaton).ok_or("a label is above 255".to_string())
}

fn opened(path: &str) -> Outcome<Automaton> {
    let mut bytes = Vec::new();
    let file = std::fs::File::open(path).and_then(|mut file| file.read_to_end(&mut bytes));
    file.map_err(|error| format!("{path}: {error}"))?;
    old::intake(&bytes).map_err(|number| format!("{path}: refused {number}"))
}

fn answer(automaton: &Automaton, line: &str) -> Outcome<String> {
    let number = || total::exact(automaton).small();
    match text::read(line.as_bytes()) {
        Line::Total => Ok(number().map_or("total over".to_string(), |number| format!("total {number}"))),
        Line::Command(2, listing) => match tree::read(&listing).map(|tree| asked(&tree, automaton)) {
            Ok(Answer::Approved) => Ok("approved".to_string()),
            Ok(Answer::NotPart) => Ok("not part".to_string()),
            Ok(Answer::NotAt(place)) => Ok(format!("not {place}")),
            Err(number) => Ok(format!("refused {number}")),
            Ok(other) => Err(format!("{other:?}: {line}")),
        },
        _ => Err(format!("no question: {line}")),
    }
}

fn listed(automaton: &Automaton) -> Outcome<Vec<String>> {
    let total = total::exact(automaton).small().ok_or("too many trees")?;
    let line = |number| serial::tree(automaton, number).map(|tree| format!("(add {})", tree.bracketed()));
    (0..total).map(|number| line(number).ok_or(format!("number {number} has a tree above 48 nodes"))).collect()
}

fn carried_out(arguments: &[&str]) -> Outcome<Vec<u8>> {
    let text = |lines: Vec<String>| lines.iter().flat_map(|line| format!("{line}\n").into_bytes()).collect();
    match arguments {
        ["make"] => made(&lines()?),
        ["answer", book] => {
            let automaton = opened(book)?;
            let answers = |(number, line): (usize, &String)| Ok(format!("{number} {}", answer(&automaton, line)?));
            (1..).zip(&lines()?).map(answers).collect::<Outcome<_>>().map(text)
        }
        ["list", book] => listed(&opened(book)?).map(text),
        _ => Err("usage: old make | answer BOOK | list BOOK".to_string()),
    }
}

fn main() {
    let arguments: Vec<String> = std::env::args().skip(1).collect();
    let arguments: Vec<&str> = arguments.iter().map(String::as_str).collect();
    let written = carried_out(&arguments).and_then(|bytes| stdout().write_all(&bytes).map_err(|e| e.to_string()));
    if let Err(error) = written {
        eprintln!("old: {error}");
        std::process::exit(1);
    }
}
