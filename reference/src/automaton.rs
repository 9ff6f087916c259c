//! Frontier-to-root automata, and the paper's addition and removal of one tree: split, clone, minimise locally.

use crate::tree::Tree;
use std::collections::{BTreeMap, BTreeSet};

/// The argument of a transition; the order of the fields is the order of transitions.
#[derive(Clone, Debug, PartialEq, Eq, PartialOrd, Ord)]
pub struct Key {
    pub arity: usize,
    pub label: u16,
    pub args: Vec<u8>,
}

/// States are 1 to n; 0 is the absorption state, which stands in no transition.
#[derive(Clone, Debug, PartialEq, Eq, Default)]
pub struct Automaton {
    pub accepting: Vec<bool>,
    pub transitions: BTreeMap<Key, u8>,
}

/// The product would have more transitions than it may.
#[derive(Debug, PartialEq, Eq)]
pub struct TooMany;

impl Key {
    pub fn new(label: u16, args: Vec<u8>) -> Key {
        Key { arity: args.len(), label, args }
    }
}

impl Automaton {
    pub fn accepts(&self, state: u8) -> bool {
        state != 0 && self.accepting[state as usize - 1]
    }

    fn output(&self, label: u16, args: &[u8]) -> u8 {
        self.transitions.get(&Key::new(label, args.to_vec())).copied().unwrap_or(0)
    }

    pub fn run(&self, tree: &Tree) -> u8 {
        let args: Vec<u8> = tree.children.iter().map(|child| self.run(child)).collect();
        if args.contains(&0) {
            return 0;
        }
        self.output(tree.label, &args)
    }

    /// The least place in the listing, counted from 1, of a part that leads to no state while each of its children
    /// leads to one. A tree that leads to no state has such a part.
    pub fn stop(&self, tree: &Tree) -> usize {
        let stops = |part: &&Tree| self.run(part) == 0 && part.children.iter().all(|child| self.run(child) != 0);
        let place = tree.parts().iter().position(stops).expect("some part stops a tree that leads to no state");
        place + 1
    }

    /// The minimal automaton of the language with the tree added or removed.
    pub fn changed(&self, tree: &Tree, add: bool, limit: usize) -> Result<Automaton, TooMany> {
        let mut split = Work::new(self, limit);
        split.split(tree)?;
        let own = split.run(tree);
        if add {
            split.accepting.insert(own);
        } else {
            split.accepting.remove(&own);
        }
        split.minimise(tree);
        Ok(split.numbered())
    }

    /// The same automaton with its states numbered by the rule.
    pub fn renumbered(&self) -> Automaton {
        Work::new(self, usize::MAX).numbered()
    }
}

/// The automaton while it is changed. There may be more states than a byte numbers.
struct Work {
    states: BTreeSet<u32>,
    accepting: BTreeSet<u32>,
    transitions: BTreeMap<(u16, Vec<u32>), u32>,
    next: u32,
    limit: usize,
}

impl Work {
    fn new(automaton: &Automaton, limit: usize) -> Work {
        let n = automaton.accepting.len() as u32;
        let wide = |args: &[u8]| args.iter().map(|&a| u32::from(a)).collect::<Vec<u32>>();
        Work {
            states: (1..=n).collect(),
            accepting: (1..=n).filter(|&q| automaton.accepting[q as usize - 1]).collect(),
            transitions: automaton.transitions.iter().map(|(k, &o)| ((k.label, wide(&k.args)), u32::from(o))).collect(),
            next: n + 1,
            limit,
        }
    }

    fn run(&self, tree: &Tree) -> u32 {
        let args: Vec<u32> = tree.children.iter().map(|child| self.run(child)).collect();
        self.transitions.get(&(tree.label, args)).copied().unwrap_or(0)
    }

    fn incoming(&self, state: u32) -> usize {
        self.transitions.values().filter(|&&out| out == state).count()
    }

    fn insert(&mut self, key: (u16, Vec<u32>), out: u32) -> Result<(), TooMany> {
        self.transitions.insert(key, out);
        if self.transitions.len() > self.limit {
            return Err(TooMany);
        }
        Ok(())
    }

    /// Figure 2: afterwards each part of the tree has a state of its own.
    fn split(&mut self, tree: &Tree) -> Result<(), TooMany> {
        for child in &tree.children {
            self.split(child)?;
        }
        let args: Vec<u32> = tree.children.iter().map(|child| self.run(child)).collect();
        let key = (tree.label, args);
        let old = self.transitions.get(&key).copied().unwrap_or(0);
        if old != 0 && self.incoming(old) == 1 {
            return Ok(());
        }
        let new = self.next;
        self.next += 1;
        self.states.insert(new);
        if old != 0 {
            self.clone_state(old, new)?;
        }
        self.insert(key, new)
    }

    /// Figure 3: every choice of occurrences of the old state may be the new one instead.
    fn clone_state(&mut self, old: u32, new: u32) -> Result<(), TooMany> {
        if self.accepting.contains(&old) {
            self.accepting.insert(new);
        }
        loop {
            let mut missing = Vec::new();
            for ((label, args), &out) in &self.transitions {
                for (k, &a) in args.iter().enumerate() {
                    if a == old {
                        let mut other = args.clone();
                        other[k] = new;
                        if !self.transitions.contains_key(&(*label, other.clone())) {
                            missing.push(((*label, other), out));
                        }
                    }
                }
            }
            if missing.is_empty() {
                return Ok(());
            }
            for (key, out) in missing {
                self.insert(key, out)?;
            }
        }
    }

    /// Figures 4 and 5: the states of the tree's parts, from the root down, are merged with an equivalent state of
    /// the register, the absorption state among them, or join the register.
    fn minimise(&mut self, tree: &Tree) {
        let mut agenda = Vec::new();
        self.topological(tree, &mut agenda);
        agenda.reverse();
        let mut register: BTreeSet<u32> = self.states.iter().copied().filter(|q| !agenda.contains(q)).collect();
        register.insert(0);
        for state in agenda {
            match register.iter().copied().find(|&other| self.equivalent(state, other)) {
                Some(other) => self.merge(state, other),
                None => {
                    register.insert(state);
                }
            }
        }
    }

    /// The states of the parts, each after those of its own parts.
    fn topological(&self, tree: &Tree, states: &mut Vec<u32>) {
        for child in &tree.children {
            self.topological(child, states);
        }
        let own = self.run(tree);
        if !states.contains(&own) {
            states.push(own);
        }
    }

    /// One class, and the same output wherever one of the two stands.
    fn equivalent(&self, p: u32, q: u32) -> bool {
        if self.accepting.contains(&p) != self.accepting.contains(&q) {
            return false;
        }
        self.transitions.iter().all(|((label, args), &out)| {
            (0..args.len()).all(|k| {
                let other = match args[k] {
                    a if a == p => q,
                    a if a == q => p,
                    _ => return true,
                };
                let mut replaced = args.clone();
                replaced[k] = other;
                self.transitions.get(&(*label, replaced)).copied().unwrap_or(0) == out
            })
        })
    }

    fn merge(&mut self, state: u32, other: u32) {
        self.transitions.retain(|(_, args), _| !args.contains(&state));
        for out in self.transitions.values_mut() {
            if *out == state {
                *out = other;
            }
        }
        self.transitions.retain(|_, out| *out != 0);
        self.states.remove(&state);
        self.accepting.remove(&state);
    }

    /// The numbering rule: of all transitions whose arguments have numbers and whose output has none, the first, by
    /// the order that compares the new numbers, gives its output the next number.
    fn numbered(&self) -> Automaton {
        let mut number: BTreeMap<u32, u32> = BTreeMap::new();
        let mut order = Vec::new();
        loop {
            let mut best: Option<((usize, u16, Vec<u32>), u32)> = None;
            for ((label, args), &out) in &self.transitions {
                let numbers: Option<Vec<u32>> = args.iter().map(|a| number.get(a).copied()).collect();
                if number.contains_key(&out) {
                    continue;
                }
                if let Some(numbers) = numbers {
                    let key = (args.len(), *label, numbers);
                    if best.as_ref().map_or(true, |(least, _)| key < *least) {
                        best = Some((key, out));
                    }
                }
            }
            match best {
                None => break,
                Some((_, out)) => {
                    order.push(out);
                    number.insert(out, order.len() as u32);
                }
            }
        }
        // A state without a number keeps the automaton from being equal to any numbered one.
        let byte = |q: &u32| number.get(q).map_or(0, |&n| n.min(255) as u8);
        Automaton {
            accepting: order.iter().map(|q| self.accepting.contains(q)).collect(),
            transitions: self
                .transitions
                .iter()
                .map(|((label, args), out)| (Key::new(*label, args.iter().map(byte).collect()), byte(out)))
                .collect(),
        }
    }
}
