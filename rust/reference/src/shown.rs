//! Any table, sound or not: what block 0, and a node block with the entry that leads to it, can show of the rules (refusal 3), and what a walk of everything and a look-up
//! find where nothing that they read shows a broken rule.

use crate::layout::{block, by_rank, in_limits, key, root, track, Parts, BLOCK, KEY, MOST_BLOCKS, SPOT, SPOTS_A_BLOCK};
use crate::Key;
use std::collections::{BTreeMap, BTreeSet};

/// Where the range of a first child of the root begins, whose field is unused.
const NO_LOW: Key = (i32::MIN, i32::MIN);
const MOST_USED: usize = 1896;

#[derive(Clone, Copy)]
struct Entry {
    block: usize,
    size: usize,
    low: Key,
    top: Key,
    bottom: Key,
}

/// A part of the tree: its block, the entry that leads there (none to the root), and its range.
#[derive(Clone, Copy)]
struct Part {
    block: usize,
    entry: Option<Entry>,
    from: Key,
    to: Option<Key>,
}

impl Part {
    fn holds(&self, k: Key) -> bool {
        self.from <= k && self.to.is_none_or(|to| k < to)
    }
}

struct Node {
    entries: Vec<Entry>,
    points: Vec<(Key, u32)>,
    inserts: Vec<(Key, u32)>,
    deletes: Vec<Key>,
}

fn is_zero(bytes: &[u8]) -> bool {
    bytes.iter().all(|x| *x == 0)
}

fn rises(keys: &[Key]) -> bool {
    keys.windows(2).all(|w| w[0] < w[1])
}

fn keys_of(spots: &[(Key, u32)]) -> Vec<Key> {
    spots.iter().map(|s| s.0).collect()
}

/// The most live spots of the table.
pub fn capacity(table: &[u8]) -> usize {
    SPOTS_A_BLOCK * (table.len() / BLOCK - 1)
}

/// Block 0 of a table of the right length keeps the rules that it shows by itself.
pub fn header_ok(table: &[u8]) -> bool {
    let (head, blocks) = (block(table, 0), table.len() / BLOCK);
    let is_used = |b: usize| head[12 + b / 8] >> (b % 8) & 1 == 1;
    track(head) as usize == table.len()
        && head[4] == 1
        && (1..=7).contains(&head[5])
        && (1..blocks).contains(&root(table))
        && track(&head[8..]) as usize <= capacity(table)
        && is_used(0)
        && is_used(root(table))
        && !(blocks..MOST_BLOCKS).any(is_used)
        && is_zero(&head[524..])
}

impl Node {
    /// Fields, and bytes that have to be zero.
    fn read(s: &[u8]) -> Option<Node> {
        let parts = Parts::of(s);
        let used = parts.used();
        if used > MOST_USED || u16::from_be_bytes([s[0], s[1]]) as usize != used || s[2] != 1 || !is_zero(&s[used..]) {
            return None;
        }
        let mut entries = vec![];
        for j in 0..parts.children {
            let e = &s[Parts::entry_at(j)..];
            let size = e[2] as usize;
            if e[3] != 0 || (j == 0 && !is_zero(&e[4..12])) || (size == 0 && !is_zero(&e[12..28])) {
                return None;
            }
            let low = if j == 0 { NO_LOW } else { key(&e[4..]) };
            entries.push(Entry { block: u16::from_be_bytes([e[0], e[1]]) as usize, size, low, top: key(&e[12..]), bottom: key(&e[20..]) });
        }
        let spots = |at: usize, n: usize| (0..n).map(|i| (key(&s[at + SPOT * i..]), track(&s[at + SPOT * i + KEY..]))).collect();
        Some(Node {
            entries,
            points: spots(parts.points_at(), parts.points),
            inserts: spots(parts.inserts_at(), parts.inserts),
            deletes: (0..parts.deletes).map(|i| key(&s[parts.deletes_at() + KEY * i..])).collect(),
        })
    }

    /// P, I and D.
    fn names(&self) -> Vec<Key> {
        self.points.iter().chain(&self.inserts).map(|s| s.0).chain(self.deletes.iter().copied()).collect()
    }

    fn lows(&self) -> Vec<Key> {
        self.entries.iter().skip(1).map(|e| e.low).collect()
    }

    /// The highest and the lowest of the children's P that aren't empty.
    fn ends(&self) -> impl Iterator<Item = Key> + '_ {
        self.entries.iter().filter(|e| e.size > 0).flat_map(|e| [e.top, e.bottom])
    }

    /// Rules 2 and 5: numbers of children and sizes.
    fn sizes_ok(&self, part: &Part, level: usize) -> bool {
        let [p, i, d, c] = [self.points.len(), self.inserts.len(), self.deletes.len(), self.entries.len()];
        let fewest = if part.entry.is_some() { 4 } else { 2 };
        let children = if level == 0 { c == 0 && i + d == 0 } else { (fewest..=8).contains(&c) };
        let is_filled = (32..=64).contains(&p) && i <= 64 && d <= 16;
        children && (is_filled || p < 32 && i + d == 0 && self.entries.iter().all(|e| e.size == 0))
    }

    /// Rules 3, 4 and 7: orders of P, I and D, ranks, and the limits of places.
    fn keys_ok(&self, from: Key) -> bool {
        let (names, tops) = (self.names(), self.entries.iter().filter(|e| e.size > 0).map(|e| e.top));
        let mut below = names[self.points.len()..].iter().copied().chain(tops);
        let lowest = self.points.iter().map(|s| by_rank(s.0)).min();
        let lows = self.lows();
        rises(&keys_of(&self.points))
            && rises(&keys_of(&self.inserts))
            && rises(&self.deletes)
            && names.iter().collect::<BTreeSet<_>>().len() == names.len()
            && rises(&lows)
            && lowest.is_none_or(|low| below.all(|k| by_rank(k) < low))
            && names.iter().chain(&lows).all(|k| from <= *k)
            && names.iter().chain(&lows).copied().chain(self.ends()).all(|k| in_limits(k.0))
    }

    /// Rules 1, 3 and 6 for the entries: blocks of the table, each once, and a P that can be.
    fn entries_ok(&self, part: &Part, blocks: usize) -> bool {
        let named: BTreeSet<usize> = self.entries.iter().map(|e| e.block).chain([part.block]).collect();
        let credible = |j: usize, e: &Entry| {
            let next = self.entries.get(j + 1).map(|f| f.low);
            let inside = |k: Key| part.low().max(e.low) <= k && next.is_none_or(|n| k < n);
            let ends = if e.size == 1 { e.top == e.bottom } else { by_rank(e.bottom) < by_rank(e.top) };
            e.size == 0 || e.size <= 64 && ends && inside(e.top) && inside(e.bottom)
        };
        named.len() == self.entries.len() + 1
            && self.entries.iter().all(|e| (1..blocks).contains(&e.block))
            && self.entries.iter().enumerate().all(|(j, e)| credible(j, e))
    }

    /// Rule 6: the entry that leads here.
    fn agrees(&self, entry: &Entry) -> bool {
        let ranks = || self.points.iter().map(|s| by_rank(s.0));
        let ends = (ranks().max(), ranks().min());
        self.points.len() == entry.size && (entry.size == 0 || ends == (Some(by_rank(entry.top)), Some(by_rank(entry.bottom))))
    }

    /// "from its entry's lowest identity up to, and without, the next entry's"
    fn children(&self, part: &Part) -> Vec<Part> {
        let begin = |j: usize| if j == 0 { part.from } else { self.entries[j].low };
        let end = |j: usize| self.entries.get(j + 1).map_or(part.to, |e| Some(e.low));
        self.entries.iter().enumerate().map(|(j, e)| Part { block: e.block, entry: Some(*e), from: begin(j), to: end(j) }).collect()
    }
}

impl Part {
    /// Where its range begins as the entry says it.
    fn low(&self) -> Key {
        self.entry.map_or(NO_LOW, |e| e.low)
    }

    fn whole(table: &[u8]) -> Part {
        Part { block: root(table), entry: None, from: NO_LOW, to: None }
    }

    /// The node there, if it and the entry leading to it show no broken rule.
    fn node(&self, table: &[u8], level: usize) -> Option<Node> {
        let s = block(table, self.block);
        let node = Node::read(s)?;
        let ok = s[3] as usize == level
            && node.sizes_ok(self, level)
            && node.keys_ok(self.low())
            && node.entries_ok(self, table.len() / BLOCK)
            && self.entry.is_none_or(|e| node.agrees(&e));
        ok.then_some(node)
    }
}

struct Walk<'a> {
    table: &'a [u8],
    read: BTreeSet<usize>,
    found: Vec<(Key, u32)>,
}

impl Walk<'_> {
    fn enter(&mut self, part: Part, level: usize, above: &BTreeSet<Key>) -> Option<()> {
        if !self.read.insert(part.block) {
            return None;
        }
        let node = part.node(self.table, level)?;
        self.found.extend(node.points.iter().chain(&node.inserts).filter(|s| !above.contains(&s.0)));
        let named: BTreeSet<Key> = above.iter().copied().chain(node.names()).collect();
        for child in node.children(&part) {
            let has_spots = child.entry.is_some_and(|e| e.size > 0) && child.to.is_none_or(|to| child.from < to);
            if has_spots {
                self.enter(child, level - 1, &named)?;
            }
        }
        Some(())
    }
}

/// What a walk of everything finds, in place order; an identity that it finds twice stands there twice. None where block 0 or a node that is read shows a broken rule.
pub fn walked(table: &[u8]) -> Option<Vec<(Key, u32)>> {
    if !header_ok(table) {
        return None;
    }
    let mut walk = Walk { table, read: BTreeSet::new(), found: vec![] };
    walk.enter(Part::whole(table), table[5] as usize - 1, &BTreeSet::new())?;
    walk.found.sort_by_key(|s| s.0);
    Some(walk.found)
}

/// The spots of such a walk, where they can be laid out anew: each identity once, and no more than the table may hold.
pub fn layable(table: &[u8]) -> Option<BTreeMap<Key, u32>> {
    let found = walked(table)?;
    (rises(&keys_of(&found)) && found.len() <= capacity(table)).then(|| found.into_iter().collect())
}

/// The track of an identity on its path, if it is live there. None where block 0 or a node on the path, down to the first that names it, shows a broken rule.
pub fn looked_up(table: &[u8], k: Key) -> Option<Option<u32>> {
    if !header_ok(table) {
        return None;
    }
    let (mut part, mut level) = (Part::whole(table), table[5] as usize - 1);
    loop {
        let node = part.node(table, level)?;
        if let Some(s) = node.points.iter().chain(&node.inserts).find(|s| s.0 == k) {
            return Some(Some(s.1));
        }
        let below = node.children(&part).into_iter().find(|c| c.holds(k)).filter(|_| !node.deletes.contains(&k));
        let Some(child) = below else { return Some(None) };
        (part, level) = (child, level - 1);
    }
}
