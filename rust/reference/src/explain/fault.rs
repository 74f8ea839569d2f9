//! A broken rule, its place and its words.

use crate::layout::{Parts, ENTRY};
use crate::words;
use std::fmt;
use std::ops::Range;

/// The rules of "When a table is sound", in the paper's words, and as the seventh that of request 2026-07.
pub const RULES: [&str; 7] = [
    "Block 0 agrees with the lent length; the map marks block 0 and exactly the blocks reached from the root, each reached once.",
    "The root has level h - 1, a child one level less than its parent. A leaf has no children; an inner node has 4 to 8, the root \
    if inner 2 to 8.",
    "P, I and D rise in place order; no identity occurs twice in one node. All identities lie in the node's range: from its entry's \
    lowest identity up to, and without, the next entry's. A first child's range begins, and a last child's ends, where its parent's \
    does; the root's has no ends. From the second entry on, the lowest identities rise strictly and lie in the parent's range.",
    "In rank order P lies above every identity in its own I and D and in all P, I and D below it.",
    "Either P is 32 to 64, I at most 64 and D at most 16, or P is under 32, its I and D are empty and all P, I and D below it are \
    empty. A leaf's I and D are empty.",
    "Entries agree with their children. The figure in bytes 8-11 lies in its limits. Every other field and zero byte is as laid out \
    above.",
    "A place lies in -1,000,000 to 1,000,000 centimetres: that of every identity in P, I and D, of the lowest identities from the second \
    entry on, and of the highest and the lowest of each P that is not empty.",
];

/// How a block is reached.
#[derive(Clone, Copy, Debug, PartialEq, Eq)]
pub enum Way {
    /// Block 0, where every reader begins.
    First,
    /// The root, named in bytes 6-7 of block 0.
    Root,
    /// Entry number `entry` (from 1) of `of` in this block.
    Entry { block: usize, entry: usize, of: usize },
}

impl fmt::Display for Way {
    fn fmt(&self, f: &mut fmt::Formatter) -> fmt::Result {
        match self {
            Way::First => write!(f, "the card's first block, where every reader begins"),
            Way::Root => write!(f, "reached from block 0, bytes 6-7: it is the root"),
            Way::Entry { block, entry, of } => {
                let at = Parts::entry_at(entry - 1);
                let bytes = words::bytes(&(at..at + ENTRY));
                write!(f, "reached from block {block}, entry {entry} of {of} ({bytes} there)")
            }
        }
    }
}

/// A broken rule: its number from 1 to 7, the block where it shows, the bytes there, how the block is reached, and what is wrong.
#[derive(Clone, Debug, PartialEq, Eq)]
pub struct Fault {
    pub rule: usize,
    pub block: usize,
    pub bytes: Range<usize>,
    pub way: Way,
    pub what: String,
}

impl fmt::Display for Fault {
    fn fmt(&self, f: &mut fmt::Formatter) -> fmt::Result {
        let Fault { rule, block, bytes, what, .. } = self;
        write!(f, "block {block}, {}, breaks rule {rule}: {what}", words::bytes(bytes))
    }
}

impl std::error::Error for Fault {}
