//! sketch CRATES FOLDER: writes the code of the crates beneath CRATES to FOLDER as one Rust library, with contracts left
//! out and indices unchecked. It is for timing and trying code that is not proved yet; nothing is proved of it.

use std::collections::BTreeSet;
use std::fs;
use std::path::{Path, PathBuf};

/// Words before a clause of a contract, which a name may follow.
const CLAUSES: [&str; 2] = ["requires", "ensures"];

/// Attributes that only the prover reads.
const ATTRIBUTES: [&str; 3] = ["#![tactic(", "#[tactic(", "#[cycle("];

/// The kit's sums that wrap, which Rust has as methods.
const WRAPPING: &str = "pub fn wrapping_add_u8(a: u8, b: u8) -> u8 { a.wrapping_add(b) }
pub fn wrapping_add_usize(a: usize, b: usize) -> usize { a.wrapping_add(b) }
";

/// The place after the bracket that closes the one before `from`.
fn closed(text: &[char], from: usize, open: char, close: char) -> usize {
    let mut depth = 1;
    let mut at = from;
    while depth > 0 {
        depth += usize::from(text[at] == open);
        depth -= usize::from(text[at] == close);
        at += 1;
    }
    at
}

/// The word that starts at a place, with the fields after it; none within a word or after a mark of a reference.
fn word_at(text: &[char], at: usize) -> Option<String> {
    let part = |c: char| c.is_alphanumeric() || c == '_' || c == '.';
    let starts = text[at].is_alphabetic() || text[at] == '_';
    let after = at > 0 && (part(text[at - 1]) || text[at - 1] == '&' || text[at - 1] == '#');
    (starts && !after).then(|| text[at..].iter().take_while(|c| part(**c)).collect())
}

/// A line without the kit's `Drop`, which Rust does not derive.
fn derived(line: &str) -> String {
    let start = line.trim_start();
    if !start.starts_with("#[derive(") {
        return line.to_string();
    }
    let names = start.trim_start_matches("#[derive(").trim_end_matches(")]").split(", ");
    let names: Vec<&str> = names.filter(|name| *name != "Drop").collect();
    if names.is_empty() { String::new() } else { format!("#[derive({})]", names.join(", ")) }
}

/// The place after a ghost field, whose fact starts at a brace: after a proof that facts are equal, and the comma.
fn field_end(text: &[char], brace: usize) -> usize {
    let mut at = closed(text, brace + 1, '{', '}');
    let rest: String = text[at..].iter().collect();
    if rest.trim_start().starts_with("by {") {
        let next = at + text[at..].iter().position(|c| *c == '{').expect("a brace after `by`");
        at = closed(text, next + 1, '{', '}');
    }
    at + usize::from(text.get(at) == Some(&','))
}

/// The text without comments, imports of ghosts, attributes for the prover, ghost fields and clauses of contracts.
fn bare(text: &str) -> String {
    let lines = text.lines().map(|line| derived(line.split("//").next().unwrap_or("")));
    let left_out = |line: &str| line.starts_with("ghost use") || ATTRIBUTES.iter().any(|start| line.starts_with(start));
    let kept = lines.filter(|line| !left_out(line.trim_start()));
    let text: Vec<char> = kept.collect::<Vec<String>>().join("\n").chars().collect();
    let mut out = String::new();
    let mut at = 0;
    while at < text.len() {
        if let Some(word) = word_at(&text, at) {
            let brace = text[at..].iter().position(|c| *c == '{').map(|found| at + found);
            if let Some(brace) = brace.filter(|_| CLAUSES.contains(&word.as_str())) {
                at = closed(&text, brace + 1, '{', '}');
                continue;
            }
            if let Some(brace) = brace.filter(|_| word == "ghost") {
                out.truncate(out.strip_suffix("pub ").unwrap_or(&out).len());
                at = field_end(&text, brace);
                continue;
            }
        }
        out.push(text[at]);
        at += 1;
    }
    out
}

/// Indices without a check, as the kit compiles them: nothing of the proved code checks one.
fn unchecked(text: &str) -> String {
    let text: Vec<char> = text.chars().collect();
    let mut out = String::new();
    let mut at = 0;
    while at < text.len() {
        let Some(word) = word_at(&text, at) else {
            out.push(text[at]);
            at += 1;
            continue;
        };
        let open = at + word.chars().count();
        at = open;
        out.push_str(&word);
        if text.get(open) != Some(&'[') {
            continue;
        }
        let end = closed(&text, open + 1, '[', ']');
        let index: String = text[open + 1..end - 1].iter().collect();
        let rows = text.get(end) == Some(&'[');
        if rows || index.contains("..") || index.contains(';') {
            continue;
        }
        let rest: String = text[end..].iter().take(4).collect();
        let rest = rest.trim_start();
        let stored = rest.starts_with("+=") || (rest.starts_with('=') && !rest.starts_with("=="));
        out.truncate(out.len() - word.len());
        let (star, method) = if stored { ("*", "get_unchecked_mut") } else { ("(*", "get_unchecked") };
        out.push_str(&format!("{star}unsafe {{ {word}.{method}({}) }}", unchecked(&index)));
        out.push_str(if stored { "" } else { ")" });
        at = end;
    }
    out
}

/// A file's text as that of a module of the one library. `local` names the modules of its crate.
fn translated(text: &str, name: &str, crates: &BTreeSet<String>, local: &BTreeSet<String>) -> String {
    let mut text =
        bare(text).replace("crate::", &format!("crate::{name}::")).replace("std::num::", "crate::wrapping::");
    for other in crates.iter().filter(|other| *other != name && !local.contains(*other)) {
        for before in ["use ", " ", "(", "\n"] {
            text = text.replace(&format!("{before}{other}::"), &format!("{before}crate::{other}::"));
        }
    }
    unchecked(&text)
}

fn sources(folder: &Path) -> Vec<PathBuf> {
    let entries = fs::read_dir(folder).expect("a folder of sources");
    let mut files: Vec<PathBuf> = entries.map(|entry| entry.expect("a source").path()).collect();
    files.retain(|file| file.extension().is_some_and(|end| end == "rt"));
    files.sort();
    files
}

fn main() {
    let arguments: Vec<String> = std::env::args().skip(1).collect();
    let [from, to] = &arguments[..] else { panic!("usage: sketch CRATES FOLDER") };
    let (from, to) = (Path::new(from), Path::new(to));
    let folders = fs::read_dir(from).expect("a folder of crates").map(|entry| entry.expect("a crate").path());
    let code = folders.filter(|folder| folder.join("src/lib.rt").exists());
    let crates: BTreeSet<String> = code.filter_map(|folder| Some(folder.file_name()?.to_str()?.to_string())).collect();
    let mut root = String::from("#![allow(warnings)]\npub mod wrapping;\n");
    for name in &crates {
        root.push_str(&format!("pub mod {name};\n"));
        fs::create_dir_all(to.join(name)).expect("a folder for a crate");
        let files = sources(&from.join(name).join("src"));
        let stem = |file: &PathBuf| file.file_stem().expect("a name").to_string_lossy().into_owned();
        let local: BTreeSet<String> = files.iter().map(stem).collect();
        for file in &files {
            let text = fs::read_to_string(file).expect("a source can be read");
            let module = stem(file);
            let module = if module == "lib" { "mod" } else { &module };
            let target = to.join(name).join(format!("{module}.rs"));
            fs::write(target, translated(&text, name, &crates, &local)).expect("a module can be written");
        }
    }
    fs::write(to.join("wrapping.rs"), WRAPPING).expect("a module can be written");
    fs::write(to.join("lib.rs"), root).expect("the library can be written");
}
