//! Lines of the bench program, byte by byte: what may stand next after the bytes before it.

pub const MAX_LINE: usize = 512;
pub const READ_BYTES: usize = 378;
const MAX_LABEL: usize = 65_535;
/// Where the child count of a node stands, behind a label of two bytes.
const COUNT_AT: usize = 2;
const HEADS: [&[u8]; 3] = [b"(add ", b"(drop ", b"(ask "];
const TOTAL: &[u8] = b"(total)";

/// A command by its place among add, drop and ask, with the listing of its tree; the line that asks for the total; the
/// column of the first byte that no well-formed line has there; or a line that is too long.
#[derive(Debug, PartialEq, Eq)]
pub enum Line {
    Command(usize, Vec<u8>),
    Total,
    Form(usize),
    Long,
}

impl Line {
    /// The number that the C interface returns.
    pub fn packed(&self) -> u64 {
        match self {
            Line::Command(place, listing) => 256 * (1 + *place as u64) + 65_536 * listing.len() as u64,
            Line::Form(column) => 256 * 4 + 65_536 * *column as u64,
            Line::Long => 256 * 5,
            Line::Total => 256 * 6,
        }
    }

    /// The listing with zeros behind it, as the C interface writes it.
    pub fn padded(&self) -> Vec<u8> {
        let mut bytes = if let Line::Command(_, listing) = self { listing.clone() } else { Vec::new() };
        bytes.resize(READ_BYTES, 0);
        bytes
    }
}

/// What may stand next.
enum Next {
    Tree,
    Label,
    /// More digits of a label, or what stands behind a label.
    Digits(usize),
    /// What stands behind a child.
    Child,
    /// The bracket that ends the line's form.
    Close,
    Nothing,
}

pub fn read(line: &[u8]) -> Line {
    if line.len() > MAX_LINE {
        return Line::Long;
    }
    let shared = |head: &[u8]| line.iter().zip(head).take_while(|(x, y)| x == y).count();
    if line == TOTAL {
        return Line::Total;
    }
    let Some(place) = HEADS.iter().position(|head| shared(head) == head.len()) else {
        return Line::Form(1 + HEADS.iter().chain(&[TOTAL]).map(|head| shared(head)).max().unwrap_or(0));
    };
    let start = HEADS[place].len();
    match tree(&line[start..]) {
        Ok(listing) => Line::Command(place, listing),
        Err(at) => Line::Form(1 + start + at),
    }
}

/// The listing of a tree with a closing bracket behind it, or the first byte that may not stand there.
fn tree(text: &[u8]) -> Result<Vec<u8>, usize> {
    let mut listing: Vec<u8> = Vec::new();
    let mut open: Vec<usize> = Vec::new();
    let mut next = Next::Tree;
    for (i, &byte) in text.iter().enumerate() {
        if let (Next::Digits(value), b' ' | b')') = (&next, byte) {
            if let Some(&parent) = open.last() {
                listing[parent + COUNT_AT] += 1;
            }
            open.push(listing.len());
            listing.extend((*value as u16).to_be_bytes().into_iter().chain([0]));
        }
        next = match (next, byte) {
            (Next::Tree, b'(') => Next::Label,
            (Next::Label, b'0'..=b'9') => Next::Digits(usize::from(byte - b'0')),
            (Next::Digits(value), b'0'..=b'9') if value > 0 && 10 * value + usize::from(byte - b'0') <= MAX_LABEL => {
                Next::Digits(10 * value + usize::from(byte - b'0'))
            }
            (Next::Digits(_) | Next::Child, b' ') => Next::Tree,
            (Next::Digits(_) | Next::Child, b')') => {
                open.pop();
                if open.is_empty() { Next::Close } else { Next::Child }
            }
            (Next::Close, b')') => Next::Nothing,
            _ => return Err(i),
        };
    }
    if let Next::Nothing = next { Ok(listing) } else { Err(text.len()) }
}
