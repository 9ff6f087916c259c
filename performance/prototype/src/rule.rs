//! The rule by which states are numbered (refusal 13), looked at in one pass over sorted transitions.

use crate::format::NAMES;
use crate::packed::{out_of, top_of, Transition};

/// The outputs that transitions have led to so far.
pub struct Rule {
    states: usize,
    /// All of 1 to `low` have been seen.
    low: usize,
    /// One above the greatest argument of the transition that a state was last seen by; 0 for a state not seen. All
    /// states from there on up to the state have been seen.
    seen: [u8; NAMES],
}

impl Rule {
    pub fn new(states: usize) -> Rule {
        Rule { states, low: 0, seen: [0; NAMES] }
    }

    /// Whether the state and all below it have been seen.
    pub fn below(&self, state: usize) -> bool {
        state <= self.low
    }

    /// Whether a transition with this greatest argument and this output can say something new of the output.
    pub fn is_news(&self, top: usize, out: usize) -> bool {
        !self.below(out) && top < out
    }

    pub fn has(&self, state: usize) -> bool {
        self.seen[state] != 0
    }

    /// Takes note of a transition that is news. Whether all states between its arguments and its output have been
    /// seen.
    pub fn note(&mut self, top: usize, out: usize) -> bool {
        let follows = out == self.low + 1 || self.all_seen(top + 1, out);
        self.seen[out] = (top + 1) as u8;
        while self.low < self.states && self.seen[self.low + 1] != 0 {
            self.low += 1;
        }
        follows
    }

    /// Each mark lets the loop skip the whole seen interval.
    fn all_seen(&self, from: usize, end: usize) -> bool {
        let mut state = end;
        while from < state {
            let least = usize::from(self.seen[state - 1]);
            if least == 0 {
                return false;
            }
            state = least;
        }
        true
    }

    pub fn complete(&self) -> bool {
        self.low == self.states
    }
}

pub struct Ruled {
    /// Whether the states are numbered by the rule.
    pub numbered: bool,
    /// Whether every output is above its arguments.
    pub climbing: bool,
}

/// `firsts` gets the transition, counted from 1, by which each state is first seen.
pub fn ruled(run: &[Transition], states: usize, firsts: &mut [u16; NAMES]) -> Ruled {
    let mut rule = Rule::new(states);
    let (mut numbered, mut climbing) = (true, true);
    for (i, transition) in run.iter().enumerate() {
        let (top, out) = (usize::from(top_of(transition)), out_of(transition));
        climbing &= top < out;
        if rule.is_news(top, out) {
            if !rule.has(out) {
                firsts[out] = (i + 1) as u16;
            }
            numbered &= rule.note(top, out);
        }
    }
    Ruled { numbered: numbered && rule.complete(), climbing }
}
