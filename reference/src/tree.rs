//! Trees and their listings: refusals 1 to 4.

pub const MAX_NODES: usize = 48;
/// A label of two bytes, high byte first, and a child count.
pub const NODE_BYTES: usize = 3;
pub const LISTING_BYTES: usize = NODE_BYTES * MAX_NODES;
pub const MAX_CHILDREN: usize = 8;

#[derive(Clone, Debug, PartialEq, Eq, PartialOrd, Ord, Hash)]
pub struct Tree {
    pub label: u16,
    pub children: Vec<Tree>,
}

impl Tree {
    pub fn leaf(label: u16) -> Tree {
        Tree { label, children: Vec::new() }
    }

    pub fn new(label: u16, children: Vec<Tree>) -> Tree {
        Tree { label, children }
    }

    pub fn nodes(&self) -> usize {
        1 + self.children.iter().map(Tree::nodes).sum::<usize>()
    }

    /// The part at each node, in the order of the listing.
    pub fn parts(&self) -> Vec<&Tree> {
        let mut parts = vec![self];
        for child in &self.children {
            parts.extend(child.parts());
        }
        parts
    }

    /// Label and child count of each node, node first, then its children.
    pub fn listing(&self) -> Vec<u8> {
        let mut bytes = Vec::new();
        self.list_into(&mut bytes);
        bytes
    }

    /// The tree as lines of text have it.
    pub fn bracketed(&self) -> String {
        let children: Vec<String> = self.children.iter().map(|child| format!(" {}", child.bracketed())).collect();
        format!("({}{})", self.label, children.concat())
    }

    fn list_into(&self, bytes: &mut Vec<u8>) {
        bytes.extend(self.label.to_be_bytes());
        bytes.push(self.children.len() as u8);
        for child in &self.children {
            child.list_into(bytes);
        }
    }
}

/// The tree that the bytes list, or the number of the first condition that they break.
pub fn read(listing: &[u8]) -> Result<Tree, u8> {
    if listing.len() < NODE_BYTES || listing.len() > LISTING_BYTES || listing.len() % NODE_BYTES != 0 {
        return Err(1);
    }
    if listing.chunks_exact(NODE_BYTES).any(|node| node[0] == 0 && node[1] == 0) {
        return Err(2);
    }
    if listing.chunks_exact(NODE_BYTES).any(|node| node[2] as usize > MAX_CHILDREN) {
        return Err(3);
    }
    match read_one(listing) {
        Some((tree, rest)) if rest.is_empty() => Ok(tree),
        _ => Err(4),
    }
}

fn read_one(bytes: &[u8]) -> Option<(Tree, &[u8])> {
    let (&[high, low, count], mut rest) = bytes.split_first_chunk()?;
    let mut children = Vec::with_capacity(count as usize);
    for _ in 0..count {
        let (child, after) = read_one(rest)?;
        children.push(child);
        rest = after;
    }
    Some((Tree { label: u16::from_be_bytes([high, low]), children }, rest))
}
