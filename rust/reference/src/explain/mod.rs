//! Why a table is not sound: the scope paper's six rules and the limits of places, read one by one, with the places where they are broken.

mod entry;
mod fault;
mod node;

use crate::layout::{root, track, BLOCK, FEWEST_BLOCKS, MOST_BLOCKS, SPOTS_A_BLOCK};
use crate::words::number;
use crate::{tree, Key};
pub use fault::{Fault, Way, RULES};
use node::Visit;
use std::collections::BTreeMap;
use std::ops::Range;

/// So many faults are looked for; those that follow mostly follow from them.
pub const MOST_FAULTS: usize = 20;
const MAP_AT: usize = 12;
const MAP_END: usize = 524;

/// What is wrong with a table; nothing on a sound one.
pub fn faults(table: &[u8]) -> Vec<Fault> {
    read(table).err().unwrap_or_default()
}

/// The live spots of a sound table, or the first fault.
pub fn sound(table: &[u8]) -> Result<BTreeMap<Key, u32>, Fault> {
    read(table).map_err(|mut faults| faults.swap_remove(0))
}

/// The live spots, or the faults: block 0 first, then the nodes from the root down, then the map and the figure.
fn read(table: &[u8]) -> Result<BTreeMap<Key, u32>, Vec<Fault>> {
    let mut reader = Reader { table, reached: BTreeMap::new(), faults: vec![] };
    reader.length();
    reader.clean()?;
    reader.header();
    reader.root();
    reader.map();
    reader.clean()?;
    // What is live shows only in a table without other faults.
    let live = tree::live(table);
    reader.figure(live.len());
    reader.clean()?;
    Ok(live)
}

/// The bytes of a range that are not zero: from the first to the last of them.
fn not_zero(bytes: &[u8], range: Range<usize>) -> Option<Range<usize>> {
    let is_set = |i: &usize| bytes[*i] != 0;
    let first = range.clone().find(is_set)?;
    let last = range.rev().find(is_set)?;
    Some(first..last + 1)
}

struct Reader<'a> {
    table: &'a [u8],
    reached: BTreeMap<usize, Way>,
    faults: Vec<Fault>,
}

impl Reader<'_> {
    fn blocks(&self) -> usize {
        self.table.len() / BLOCK
    }

    fn word(&self, at: usize) -> usize {
        track(&self.table[at..]) as usize
    }

    /// The faults so far, if there are any.
    fn clean(&mut self) -> Result<(), Vec<Fault>> {
        self.faults.truncate(MOST_FAULTS);
        if self.faults.is_empty() {
            Ok(())
        } else {
            Err(std::mem::take(&mut self.faults))
        }
    }

    fn head_fault(&mut self, rule: usize, bytes: Range<usize>, what: String) {
        self.faults.push(Fault { rule, block: 0, bytes, way: Way::First, what });
    }

    fn length(&mut self) {
        let length = self.table.len();
        if length % BLOCK != 0 || !(FEWEST_BLOCKS..=MOST_BLOCKS).contains(&self.blocks()) {
            let what = format!("the card has {} bytes; it has to have 9 to 4,096 whole blocks of 2,048", number(length));
            self.head_fault(1, 0..4, what);
        }
    }

    /// Block 0 without what only the tree can show.
    fn header(&mut self) {
        let (length, says) = (self.table.len(), self.word(0));
        if says != length {
            self.head_fault(1, 0..4, format!("the table length there is {} bytes; the card has {}", number(says), number(length)));
        }
        if self.table[4] != 1 {
            self.head_fault(6, 4..5, format!("the version is {}, not 1", self.table[4]));
        }
        if !(1..=7).contains(&self.table[5]) {
            self.head_fault(6, 5..6, format!("the number of levels is {}, not 1 to 7", self.table[5]));
        }
        let (figure, capacity) = (self.word(8), SPOTS_A_BLOCK * (self.blocks() - 1));
        if figure > capacity {
            let what = format!("the figure there is {}, above the capacity of {} spots", number(figure), number(capacity));
            self.head_fault(6, 8..12, what);
        }
        if let Some(bytes) = not_zero(self.table, MAP_END..BLOCK) {
            self.head_fault(6, bytes, "these bytes have to be zero".into());
        }
    }

    fn root(&mut self) {
        let root = root(self.table);
        if root == 0 || root >= self.blocks() {
            let last = self.blocks() - 1;
            self.head_fault(1, 6..8, format!("the root is block {root}; a node can lie in blocks 1 to {last}"));
            return;
        }
        self.reached.insert(root, Way::Root);
        self.node(Visit {
            block: root,
            way: Way::Root,
            level: (self.table[5] as usize).saturating_sub(1),
            from: None,
            to: None,
            entry: None,
            under: None,
            emptied: None,
        });
    }

    /// Rule 1: the map marks block 0 and exactly the blocks reached.
    fn map(&mut self) {
        // Where the walk met a fault it may have left out blocks: that they are not reached says nothing then.
        let is_whole = self.faults.is_empty();
        for b in 0..MOST_BLOCKS {
            let at = MAP_AT + b / 8;
            let is_marked = self.table[at] >> (b % 8) & 1 == 1;
            let what = match (is_marked, self.reached.get(&b)) {
                (false, _) if b == 0 => "block 0 is not marked in the map of blocks in use".into(),
                (false, Some(way)) => format!("block {b} is not marked in the map of blocks in use, but {way}"),
                (true, None) if b >= self.blocks() => format!("the map marks block {b}, which the card does not have"),
                (true, None) if b > 0 && is_whole => format!("the map marks block {b}, which no entry leads to"),
                _ => continue,
            };
            self.head_fault(1, at..at + 1, what);
        }
    }

    /// Rule 6: the figure is no less than the number of live spots.
    fn figure(&mut self, live: usize) {
        let figure = self.word(8);
        if figure < live {
            let what = format!("the figure there is {}, below the number of live spots, which is {}", number(figure), number(live));
            self.head_fault(6, 8..12, what);
        }
    }
}
