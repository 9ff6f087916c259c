//! The distinct subtrees of a tree.

use crate::format::{COUNT_AT, MAX_NODES, NODE_BYTES};
use crate::packed::{arity_of, byte_of, label_of, mapped, meta, out_of, placed, seek, Transition};

/// Children stand before parents. Subtree j, counted from 1, stands at j - 1.
pub struct Subtrees {
    pub count: usize,
    /// Child count and label of the root.
    pub metas: [u64; MAX_NODES],
    /// The children as packed subtree numbers.
    pub children: [u64; MAX_NODES],
    /// The state that the subtree runs to; 0 for none.
    pub states: [u8; MAX_NODES],
    /// The transition at the root, counted from 1; 0 for none.
    pub roots: [u16; MAX_NODES],
}

pub fn collect(tree: &[u8], run: &[Transition]) -> Subtrees {
    let mut subtrees = Subtrees {
        count: 0,
        metas: [0; MAX_NODES],
        children: [0; MAX_NODES],
        states: [0; MAX_NODES],
        roots: [0; MAX_NODES],
    };
    let mut stack = [0u8; MAX_NODES];
    let mut top = MAX_NODES;
    for node in tree.chunks_exact(NODE_BYTES).rev() {
        let arity = usize::from(node[COUNT_AT]);
        let numbers = stack[top..top + arity].iter().enumerate();
        let children = numbers.fold(0, |packed, (k, &j)| packed | placed(usize::from(j), k));
        top = top + arity - 1;
        stack[top] = subtrees.number_of(run, meta(label_of(node), node[COUNT_AT]), children);
    }
    subtrees
}

impl Subtrees {
    /// The number of the subtree, which is taken up if it is new.
    fn number_of(&mut self, run: &[Transition], meta: u64, children: u64) -> u8 {
        let count = self.count;
        let known = (0..count).find(|&j| self.children[j] == children && self.metas[j] == meta);
        if known.is_none() {
            self.metas[count] = meta;
            self.children[count] = children;
            let args = self.state_args(children, arity_of(meta));
            if !lost(args, arity_of(meta)) {
                let root = seek(run, meta, args);
                if root != 0 {
                    self.roots[count] = root as u16;
                    self.states[count] = out_of(&run[root - 1]) as u8;
                }
            }
            self.count += 1;
        }
        (known.unwrap_or(count) + 1) as u8
    }

    pub fn arity(&self, j: usize) -> usize {
        arity_of(self.metas[j])
    }

    /// The packed states of packed children; 0 for a gap.
    pub fn state_args(&self, children: u64, arity: usize) -> u64 {
        mapped(children, arity, |j| if j == 0 { 0 } else { usize::from(self.states[j - 1]) })
    }
}

/// Whether a child runs to no state.
fn lost(args: u64, arity: usize) -> bool {
    (0..arity).any(|k| byte_of(args, k) == 0)
}
