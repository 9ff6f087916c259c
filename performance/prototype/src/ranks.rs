//! Refusal 11: ranks that rise from arguments to outputs, found depth first and then looked at.

use crate::format::{MAX_TRANSITIONS, NAMES};
use crate::packed::{out_of, places, Transition};

/// Whether no state comes back to itself.
pub fn acyclic(run: &[Transition], states: usize) -> bool {
    let ranks = depth_first(run, states);
    run.iter().all(|transition| {
        let bound = ranks[out_of(transition)];
        places(transition).iter().fold(true, |below, &argument| below & (ranks[usize::from(argument)] < bound))
    })
}

/// The first argument without a mark; 0 if each has one.
pub fn unmarked(transition: &Transition, marks: &[u8; NAMES]) -> usize {
    let first = places(transition).iter().find(|&&argument| marks[usize::from(argument)] == 0);
    first.map_or(0, |&argument| usize::from(argument))
}

struct Search<'a> {
    run: &'a [Transition],
    /// For each state the next transition into it that is looked at, and for each transition the one after it; from 1.
    next: [u16; NAMES],
    after: [u16; MAX_TRANSITIONS],
    /// The rank of a state; 255 while its arguments are ranked.
    ranks: [u8; NAMES],
    rank: u8,
    path: [u8; NAMES],
}

fn depth_first(run: &[Transition], states: usize) -> [u8; NAMES] {
    let (next, after) = ([0; NAMES], [0; MAX_TRANSITIONS]);
    let mut search = Search { run, next, after, ranks: [0; NAMES], rank: 0, path: [0; NAMES] };
    for (i, transition) in run.iter().enumerate() {
        let out = out_of(transition);
        search.after[i] = search.next[out];
        search.next[out] = (i + 1) as u16;
    }
    for state in 1..=states {
        if search.ranks[state] == 0 {
            search.visit(state);
        }
    }
    search.ranks
}

impl Search<'_> {
    /// Ranks a state after all that its transitions need. A state stands on the path at most once.
    fn visit(&mut self, start: usize) {
        let mut depth = 0;
        self.enter(start, &mut depth);
        while depth > 0 {
            let state = usize::from(self.path[depth - 1]);
            let i = usize::from(self.next[state]);
            if i == 0 {
                depth -= 1;
                self.rank += 1;
                self.ranks[state] = self.rank;
                continue;
            }
            match unmarked(&self.run[i - 1], &self.ranks) {
                0 => self.next[state] = self.after[i - 1],
                argument => self.enter(argument, &mut depth),
            }
        }
    }

    fn enter(&mut self, state: usize, depth: &mut usize) {
        self.ranks[state] = 255;
        self.path[*depth] = state as u8;
        *depth += 1;
    }
}
