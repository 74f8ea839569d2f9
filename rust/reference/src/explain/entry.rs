//! The entries of a node: rules 3, 6 and 7 for their bytes and for the child they lead to, and rule 1 for the blocks they name.

use super::node::{Named, Visit};
use super::{not_zero, Reader, Way, MOST_FAULTS};
use crate::layout::{by_rank, in_limits, key, Parts, KEY, PLACE};
use crate::words::{self, identity, outside};
use crate::Key;
use std::ops::Range;

/// An entry as its node has it.
#[derive(Clone, Copy)]
pub struct Entry {
    block: usize,
    size: usize,
    low: Key,
    highest: Key,
    lowest: Key,
}

impl Entry {
    fn of(bytes: &[u8], j: usize) -> Entry {
        let e = &bytes[Parts::entry_at(j)..];
        Entry {
            block: u16::from_be_bytes([e[0], e[1]]) as usize,
            size: e[2] as usize,
            low: key(&e[4..]),
            highest: key(&e[12..]),
            lowest: key(&e[20..]),
        }
    }

    /// Why no child can agree with it: the rule, the bytes in the entry, and the words.
    fn impossible(&self, child: &Visit) -> Option<(usize, Range<usize>, String)> {
        let Entry { size, highest, lowest, .. } = *self;
        if size > 64 {
            return Some((5, 2..3, format!("says that P has {size}; P has at most 64")));
        }
        if size == 0 {
            return None;
        }
        let ends = [("highest", highest, 12..20), ("lowest", lowest, 20..28)];
        if let Some((name, k, field)) = ends.iter().find(|(_, k, _)| !in_limits(k.0)) {
            let place = field.start..field.start + PLACE;
            return Some((7, place, format!("says that the {name} of P is {}, {}", identity(*k), outside())));
        }
        let both = || [highest, lowest].map(identity);
        if by_rank(highest) < by_rank(lowest) {
            let [highest, lowest] = both();
            return Some((6, 12..28, format!("says that the highest of P is {highest} and the lowest {lowest}: the wrong way round")));
        }
        if (size == 1) != (highest == lowest) {
            let [highest, lowest] = both();
            return Some((6, 12..28, format!("says that P has {size}, its highest is {highest} and its lowest {lowest}")));
        }
        let (name, k, field) = ends.into_iter().find(|(_, k, _)| !child.holds(*k))?;
        Some((3, field, format!("says that the {name} of P is {}, outside the child's range: {}", identity(k), child.range())))
    }
}

impl Reader<'_> {
    /// Rule 6: the entry that leads here has the size, the highest and the lowest of P.
    pub fn agreement(&mut self, at: &Visit, points: &[Named]) {
        let (Some(entry), Way::Entry { block, entry: number, .. }) = (at.entry, at.way) else {
            return;
        };
        let there = |from: usize, width: usize| {
            let start = Parts::entry_at(number - 1) + from;
            format!("{} of block {block}", words::bytes(&(start..start + width)))
        };
        if points.len() != entry.size {
            let what = format!("P has {}; the entry says {} ({})", points.len(), entry.size, there(2, 1));
            return self.fault(at, 6, 4..5, what);
        }
        let highest = points.iter().max_by_key(|n| by_rank(n.key));
        let lowest = points.iter().min_by_key(|n| by_rank(n.key));
        for (name, own, says, from) in [("highest", highest, entry.highest, 12), ("lowest", lowest, entry.lowest, 20)] {
            if let Some(own) = own.filter(|own| own.key != says) {
                let what = format!("the {name} of P is {}; the entry says {} ({})", identity(own.key), identity(says), there(from, KEY));
                self.fault(at, 6, own.bytes.clone(), what);
            }
        }
    }

    /// All entries of a node, and the children of an inner one; `at` has what holds for everything below.
    pub fn children(&mut self, at: &Visit, bytes: &[u8], c: usize) {
        let lows_rise = self.lows(at, bytes, c);
        if at.level == 0 {
            return;
        }
        let low = |j: usize| lows_rise.then(|| Entry::of(bytes, j).low);
        for j in 0..c {
            let entry = Entry::of(bytes, j);
            let child = Visit {
                block: entry.block,
                way: Way::Entry { block: at.block, entry: j + 1, of: c },
                level: at.level - 1,
                from: if j == 0 { at.from } else { low(j) },
                to: if j + 1 < c { low(j + 1) } else { at.to },
                entry: Some(entry),
                ..*at
            };
            self.zeros(at, bytes, j);
            self.child(at, j, child);
        }
    }

    /// Rules 3 and 7 for the lowest identities of a node's entries. False where they can't serve as ranges.
    fn lows(&mut self, at: &Visit, bytes: &[u8], c: usize) -> bool {
        let before = self.faults.len();
        for j in 1..c {
            let (low, last) = (Entry::of(bytes, j).low, Entry::of(bytes, j - 1).low);
            let field = Parts::entry_at(j) + 4;
            let here = || format!("the lowest identity of entry {} is {}", j + 1, identity(low));
            if !at.holds(low) {
                let what = format!("{}, outside the node's range: {}", here(), at.range());
                self.fault(at, 3, field..field + KEY, what);
            }
            if !in_limits(low.0) {
                self.fault(at, 7, field..field + PLACE, format!("{}, {}", here(), outside()));
            }
            if j > 1 && low <= last {
                let what = format!("{}; it does not rise above that of entry {j}, which is {}", here(), identity(last));
                self.fault(at, 3, field..field + KEY, what);
            }
        }
        self.faults.len() == before
    }

    /// Rule 6 for the zero bytes of an entry.
    fn zeros(&mut self, at: &Visit, bytes: &[u8], j: usize) {
        let start = Parts::entry_at(j);
        let mut zeros = vec![(3..4, "has to be zero")];
        if j == 0 {
            zeros.push((4..12, "is the range field of a first entry, which is zero and unused"));
        }
        if bytes[start + 2] == 0 {
            zeros.push((12..28, "is the highest and the lowest of an empty P, which are zero and unused"));
        }
        for (field, what) in zeros {
            let field = start + field.start..start + field.end;
            if not_zero(bytes, field.clone()).is_some() {
                self.fault(at, 6, field, format!("in entry {}, this {what}", j + 1));
            }
        }
    }

    /// An entry by itself, then the child it leads to.
    fn child(&mut self, at: &Visit, j: usize, mut child: Visit) {
        let (start, entry, block) = (Parts::entry_at(j), j + 1, child.block);
        if let Some((rule, field, what)) = child.entry.and_then(|e| e.impossible(&child)) {
            self.fault(at, rule, start + field.start..start + field.end, format!("entry {entry} {what}"));
            child.entry = None;
        }
        let what = if block == 0 || block >= self.blocks() {
            format!("entry {entry} names block {block}; a node can lie in blocks 1 to {}", self.blocks() - 1)
        } else if block == at.block {
            format!("entry {entry} names its own block, {block}")
        } else if let Some(way) = self.reached.get(&block) {
            format!("entry {entry} names block {block}, which is {way}")
        } else {
            self.reached.insert(block, child.way);
            if self.faults.len() < MOST_FAULTS {
                self.node(child);
            }
            return;
        };
        self.fault(at, 1, start..start + 2, what);
    }
}
