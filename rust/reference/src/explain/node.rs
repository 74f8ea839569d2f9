//! One node: rules 2 to 5 and 7 for its bytes, and rule 6 for its fields.

use super::entry::Entry;
use super::{not_zero, Fault, Reader, Way, MOST_FAULTS};
use crate::layout::{block, by_rank, in_limits, key, Parts, BLOCK, KEY, PLACE, SPOT};
use crate::words::{self, identity, outside};
use crate::Key;
use std::collections::HashMap;
use std::ops::Range;

const MOST_USED: usize = 1896;

/// A node to read, and what the nodes above say of it.
#[derive(Clone, Copy)]
pub struct Visit {
    pub block: usize,
    pub way: Way,
    pub level: usize,
    pub from: Option<Key>,
    pub to: Option<Key>,
    /// The entry that leads here, unless that is impossible in itself.
    pub entry: Option<Entry>,
    /// The lowest in rank order of the nearest P above that has any, and its block.
    pub under: Option<(Key, usize)>,
    /// A block above whose P is under 32, so that everything here has to be empty.
    pub emptied: Option<usize>,
}

impl Visit {
    pub fn holds(&self, k: Key) -> bool {
        self.from.is_none_or(|from| from <= k) && self.to.is_none_or(|to| k < to)
    }

    pub fn range(&self) -> String {
        match (self.from.map(identity), self.to.map(identity)) {
            (Some(from), Some(to)) => format!("from {from} up to, and without, {to}"),
            (Some(from), None) => format!("from {from} on"),
            (None, Some(to)) => format!("below {to}"),
            (None, None) => "everything".into(),
        }
    }
}

/// An identity in a node: which list it is in, and its bytes.
pub struct Named {
    pub key: Key,
    pub list: char,
    pub bytes: Range<usize>,
}

/// All identities of a node: P, then I, then D, as they stand.
fn named(bytes: &[u8], parts: &Parts) -> Vec<Named> {
    let lists = [
        ('P', parts.points_at(), parts.points, SPOT),
        ('I', parts.inserts_at(), parts.inserts, SPOT),
        ('D', parts.deletes_at(), parts.deletes, KEY),
    ];
    let mut out = vec![];
    for (list, start, size, width) in lists {
        for i in 0..size {
            let at = start + width * i;
            out.push(Named { key: key(&bytes[at..]), list, bytes: at..at + KEY });
        }
    }
    out
}

impl Reader<'_> {
    pub fn fault(&mut self, at: &Visit, rule: usize, bytes: Range<usize>, what: String) {
        let (block, way) = (at.block, at.way);
        self.faults.push(Fault { rule, block, bytes, way, what });
    }

    pub fn node(&mut self, at: Visit) {
        let bytes = block(self.table, at.block);
        let parts = Parts::of(bytes);
        if !self.layout(&at, bytes, &parts) || self.faults.len() >= MOST_FAULTS {
            return;
        }
        self.sizes(&at, &parts);
        let all = named(bytes, &parts);
        let points = &all[..parts.points];
        let lowest = points.iter().map(|n| n.key).min_by_key(|k| by_rank(*k));
        self.order(&at, &all);
        self.ranks(&at, &all, lowest);
        self.limits(&at, &all);
        self.agreement(&at, points);
        let below = Visit {
            under: lowest.map(|k| (k, at.block)).or(at.under),
            emptied: at.emptied.or((parts.points < 32).then_some(at.block)),
            ..at
        };
        self.children(&below, bytes, parts.children);
    }

    /// Fields and zero bytes of a node. False where the rest can't be read.
    fn layout(&mut self, at: &Visit, bytes: &[u8], parts: &Parts) -> bool {
        let used = parts.used();
        let says = u16::from_be_bytes([bytes[0], bytes[1]]) as usize;
        if used > MOST_USED {
            self.fault(at, 6, 4..8, format!("P, I, D and children of these sizes need {used} bytes; a node uses at most 1,896"));
        }
        if says != used {
            self.fault(at, 6, 0..2, format!("the used length there is {says}; with these sizes of P, I, D and children it is {used}"));
        }
        if bytes[2] != 1 {
            self.fault(at, 6, 2..3, format!("the version is {}, not 1", bytes[2]));
        }
        if bytes[3] as usize != at.level {
            self.fault(at, 2, 3..4, format!("the level is {}; here it has to be {}", bytes[3], at.level));
        }
        if used > BLOCK {
            return false;
        }
        if let Some(bytes) = not_zero(bytes, used..BLOCK) {
            self.fault(at, 6, bytes, "these bytes lie behind what is used and have to be zero".into());
        }
        let least = if at.way == Way::Root { 2 } else { 4 };
        let c = parts.children;
        if at.level == 0 && c > 0 {
            self.fault(at, 2, 7..8, format!("a leaf has no children; here are {c}"));
        } else if at.level > 0 && !(least..=8).contains(&c) {
            self.fault(at, 2, 7..8, format!("the number of children is {c}; here it has to be {least} to 8"));
        }
        true
    }

    /// Rule 5 for the sizes of one node.
    fn sizes(&mut self, at: &Visit, parts: &Parts) {
        let Parts { points: p, inserts: i, deletes: d, .. } = *parts;
        let here = || format!("P has {p}, I {i}, D {d}");
        if at.level == 0 && i + d > 0 {
            self.fault(at, 5, 5..7, format!("{}; a leaf's I and D are empty", here()));
        } else if p < 32 && i + d > 0 {
            self.fault(at, 5, 4..7, format!("{}; where P is under 32, I and D are empty", here()));
        } else if p > 64 || i > 64 || d > 16 {
            self.fault(at, 5, 4..7, format!("{}; P has at most 64, I at most 64, D at most 16", here()));
        }
        if let (Some(above), true) = (at.emptied, p + i + d > 0) {
            self.fault(at, 5, 4..7, format!("{}; P of block {above} is under 32, so everything below it has to be empty", here()));
        }
    }

    /// Rule 3 for the identities of one node; the first of each kind of fault.
    fn order(&mut self, at: &Visit, all: &[Named]) {
        let falls = all.windows(2).find(|w| w[0].list == w[1].list && w[0].key >= w[1].key);
        if let Some([a, b]) = falls.map(|w| [&w[0], &w[1]]) {
            let what = format!("{} does not rise in place order: {} stands behind {}", a.list, identity(b.key), identity(a.key));
            self.fault(at, 3, a.bytes.start..b.bytes.end, what);
        }
        let mut seen: HashMap<Key, &Named> = HashMap::new();
        for n in all {
            if let Some(first) = seen.insert(n.key, n).filter(|first| first.list != n.list) {
                let place = words::bytes(&first.bytes);
                let what = format!("{} occurs twice in the node: in {} ({place}) and in {}", identity(n.key), first.list, n.list);
                self.fault(at, 3, n.bytes.clone(), what);
                break;
            }
        }
        if let Some(n) = all.iter().find(|n| !at.holds(n.key)) {
            let what = format!("{} in {} lies outside the node's range: {}", identity(n.key), n.list, at.range());
            self.fault(at, 3, n.bytes.clone(), what);
        }
    }

    /// Rule 7 for the identities of one node; the first that breaks it.
    fn limits(&mut self, at: &Visit, all: &[Named]) {
        if let Some(n) = all.iter().find(|n| !in_limits(n.key.0)) {
            let place = n.bytes.start..n.bytes.start + PLACE;
            self.fault(at, 7, place, format!("{} in {} lies {}", identity(n.key), n.list, outside()));
        }
    }

    /// Rule 4 for the identities of one node: its own P against I and D, and all against the nearest P above.
    fn ranks(&mut self, at: &Visit, all: &[Named], lowest: Option<Key>) {
        let is_above = |n: &Named, low: Key| by_rank(n.key) >= by_rank(low);
        let what = |n: &Named, low: Key, whose: &str| {
            format!("{} in {} does not lie below the lowest of {whose}, which is {}", identity(n.key), n.list, identity(low))
        };
        if let Some(low) = lowest {
            if let Some(n) = all.iter().find(|n| n.list != 'P' && is_above(n, low)) {
                self.fault(at, 4, n.bytes.clone(), what(n, low, "P"));
            }
        }
        if let Some((low, above)) = at.under {
            if let Some(n) = all.iter().find(|n| is_above(n, low)) {
                self.fault(at, 4, n.bytes.clone(), what(n, low, &format!("P of block {above}")));
            }
        }
    }
}
