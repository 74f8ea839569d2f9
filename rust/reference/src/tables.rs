//! Tables made in many arrangements, with changes waiting in every inner node, and what a Report reads of them by the scope paper's words.

use crate::layout::{block, by_rank, key, root, track, Key, HIGHEST_PLACE, LOWEST_PLACE};
use crate::range::meets;
use std::collections::{BTreeMap, BTreeSet};

#[derive(Clone, Debug)]
pub struct Entry {
    pub block: usize,
    pub size: usize,
    pub low: Option<Key>,
    pub top: Option<Key>,
    pub bottom: Option<Key>,
}

#[derive(Clone, Debug)]
pub struct Node {
    pub level: u8,
    pub entries: Vec<Entry>,
    pub points: BTreeMap<Key, u32>,
    pub inserts: BTreeMap<Key, u32>,
    pub deletes: BTreeSet<Key>,
}

pub struct Random(pub u64);

impl Random {
    pub fn draw(&mut self) -> u64 {
        self.0 ^= self.0 << 13;
        self.0 ^= self.0 >> 7;
        self.0 ^= self.0 << 17;
        self.0
    }

    pub fn below(&mut self, n: usize) -> usize {
        (self.draw() % n as u64) as usize
    }

    /// A place inside the limits, now and then one of them.
    pub fn place(&mut self) -> i32 {
        let places = (HIGHEST_PLACE - LOWEST_PLACE + 1) as usize;
        match self.below(400) {
            0 => LOWEST_PLACE,
            1 => HIGHEST_PLACE,
            _ => LOWEST_PLACE + self.below(places) as i32,
        }
    }
}

fn put(s: &mut [u8], v: u32) {
    s[..4].copy_from_slice(&v.to_be_bytes());
}

fn put_key(s: &mut [u8], k: Key) {
    put(s, k.0 as u32);
    put(&mut s[4..], k.1 as u32);
}

impl Node {
    fn entry(&self, block: usize, low: Option<Key>) -> Entry {
        let top = self.points.keys().copied().max_by_key(|k| by_rank(*k));
        let bottom = self.points.keys().copied().min_by_key(|k| by_rank(*k));
        Entry { block, size: self.points.len(), low, top, bottom }
    }

    pub fn write(&self, s: &mut [u8]) {
        s.fill(0);
        let (c, p, i, d) = (self.entries.len(), self.points.len(), self.inserts.len(), self.deletes.len());
        let used = 8 + 28 * c + 12 * (p + i) + 8 * d;
        s[0] = (used >> 8) as u8;
        s[1] = used as u8;
        s[2] = 1;
        s[3] = self.level;
        s[4] = p as u8;
        s[5] = i as u8;
        s[6] = d as u8;
        s[7] = c as u8;
        let mut at = 8;
        for e in &self.entries {
            s[at] = (e.block >> 8) as u8;
            s[at + 1] = e.block as u8;
            s[at + 2] = e.size as u8;
            if let Some(k) = e.low {
                put_key(&mut s[at + 4..], k);
            }
            if let (Some(t), Some(b)) = (e.top, e.bottom) {
                put_key(&mut s[at + 12..], t);
                put_key(&mut s[at + 20..], b);
            }
            at += 28;
        }
        for (k, t) in self.points.iter().chain(self.inserts.iter()) {
            put_key(&mut s[at..], *k);
            put(&mut s[at + 8..], *t);
            at += 12;
        }
        for k in &self.deletes {
            put_key(&mut s[at..], *k);
            at += 8;
        }
    }

    /// The node of a block that is known to be well formed.
    pub fn read(s: &[u8]) -> Node {
        let (p, i, d, c) = (s[4] as usize, s[5] as usize, s[6] as usize, s[7] as usize);
        let mut at = 8;
        let mut entries = vec![];
        for j in 0..c {
            let e = &s[at..at + 28];
            let size = e[2] as usize;
            entries.push(Entry {
                block: (e[0] as usize) << 8 | e[1] as usize,
                size,
                low: if j == 0 { None } else { Some(key(&e[4..])) },
                top: if size == 0 { None } else { Some(key(&e[12..])) },
                bottom: if size == 0 { None } else { Some(key(&e[20..])) },
            });
            at += 28;
        }
        let mut spots = |n: usize| {
            let mut out = BTreeMap::new();
            for _ in 0..n {
                out.insert(key(&s[at..]), track(&s[at + 8..]));
                at += 12;
            }
            out
        };
        let points = spots(p);
        let inserts = spots(i);
        let mut deletes = BTreeSet::new();
        for _ in 0..d {
            deletes.insert(key(&s[at..]));
            at += 8;
        }
        Node { level: s[3], entries, points, inserts, deletes }
    }
}

/// A table and the spots that are live in it.
pub struct Made {
    pub table: Vec<u8>,
    pub live: BTreeMap<Key, u32>,
    pub levels: usize,
}

struct Maker<'a> {
    table: Vec<u8>,
    next: usize,
    random: &'a mut Random,
    waiting: bool,
}

impl Maker<'_> {
    /// Lays out the spots of a range whose rank lies under `limit`; `all` has also those that nodes above hold, and sets the ranges.
    fn lay(&mut self, all: &[(Key, u32)], limit: Option<Key>, fans: &[usize]) -> (usize, Node, BTreeMap<Key, u32>) {
        let block = self.next;
        self.next += 1;
        let mut own: Vec<(Key, u32)> = all.iter().copied().filter(|(k, _)| limit.is_none_or(|l| by_rank(*k) < by_rank(l))).collect();
        own.sort_by_key(|(k, _)| std::cmp::Reverse(by_rank(*k)));
        let level = fans.len() as u8;
        let take = if level == 0 || own.len() <= 40 { own.len() } else { 32 + self.random.below(33).min(own.len() - 32) };
        let rest = own.split_off(take);
        let mut node =
            Node { level, entries: vec![], points: own.into_iter().collect(), inserts: BTreeMap::new(), deletes: BTreeSet::new() };
        let cut = node.points.keys().copied().min_by_key(|k| by_rank(*k));
        let mut below: BTreeMap<Key, u32> = rest.into_iter().collect();
        if level > 0 && self.waiting && take >= 32 {
            let keys: Vec<Key> = below.keys().copied().collect();
            for _ in 0..64.min(keys.len() / 2) {
                let k = keys[self.random.below(keys.len())];
                if node.deletes.contains(&k) || node.inserts.contains_key(&k) {
                    continue;
                }
                match self.random.below(5) {
                    0 if node.deletes.len() < 16 => {
                        node.deletes.insert(k);
                    }
                    1 | 2 => {
                        node.inserts.insert(k, self.random.draw() as u32);
                    }
                    _ => {
                        node.inserts.insert(k, self.random.draw() as u32);
                        below.remove(&k);
                    }
                }
            }
        }
        let mut live = BTreeMap::new();
        if level > 0 {
            let fan = fans[0];
            let mut from = 0;
            for j in 0..fan {
                let to = from + (all.len() - from) / (fan - j);
                let part: Vec<(Key, u32)> = all[from..to]
                    .iter()
                    .filter_map(|(k, t)| {
                        let above = cut.is_none_or(|c| by_rank(*k) >= by_rank(c));
                        if above {
                            Some((*k, *t))
                        } else {
                            below.get(k).map(|t| (*k, *t))
                        }
                    })
                    .collect();
                let low = if j == 0 { None } else { Some(all[from].0) };
                let (b, child, found) = self.lay(&part, if cut.is_some() { cut } else { Some((i32::MIN, i32::MIN)) }, &fans[1..]);
                node.entries.push(child.entry(b, low));
                live.extend(found);
                from = to;
            }
        }
        for k in &node.deletes {
            live.remove(k);
        }
        live.extend(node.inserts.iter().map(|(k, t)| (*k, *t)));
        live.extend(node.points.iter().map(|(k, t)| (*k, *t)));
        node.write(&mut self.table[2048 * block..2048 * (block + 1)]);
        (block, node, live)
    }
}

fn fans_for(n: usize) -> Vec<usize> {
    let shape = |f: usize, g: usize, h: usize| -> Vec<usize> {
        (0..h)
            .map(|i| {
                if i == 0 {
                    f
                } else if i == 1 {
                    g
                } else {
                    6
                }
            })
            .collect()
    };
    let mut rows = vec![shape(0, 0, 0)];
    for f in [2, 3, 4, 6, 8] {
        rows.push(shape(f, 6, 1));
    }
    for h in 2..=4 {
        for (f, g) in [(2, 5), (2, 6), (3, 5), (3, 6), (4, 6), (5, 6), (6, 6), (8, 6)] {
            rows.push(shape(f, g, h));
        }
    }
    rows.push(shape(2, 5, 5));
    rows.into_iter().find(|r| n <= 32 * r.iter().product::<usize>()).unwrap()
}

/// A sound table of this many blocks with the given spots laid out, and changes waiting in its inner nodes where asked.
pub fn make(blocks: usize, spots: &BTreeMap<Key, u32>, waiting: bool, random: &mut Random) -> Made {
    let all: Vec<(Key, u32)> = spots.iter().map(|(k, t)| (*k, *t)).collect();
    let fans = fans_for(all.len());
    let mut maker = Maker { table: vec![0xA5; 2048 * blocks], next: 1, random, waiting };
    let (root, _, live) = maker.lay(&all, None, &fans);
    let (used, mut table) = (maker.next, maker.table);
    assert!(used <= blocks);
    let h = &mut table[..2048];
    h.fill(0);
    put(h, 2048 * blocks as u32);
    h[4] = 1;
    h[5] = fans.len() as u8 + 1;
    h[7] = root as u8;
    put(&mut h[8..], live.len() as u32);
    for b in 0..used {
        h[12 + b / 8] |= 1 << (b % 8);
    }
    Made { table, live, levels: fans.len() + 1 }
}

/// Random spots: places and ranks from small ranges, so that both repeat, and now and then a limit of the places or an end of the ranks.
pub fn some_spots(n: usize, places: usize, ranks: usize, random: &mut Random) -> BTreeMap<Key, u32> {
    let mut out = BTreeMap::new();
    let mut tries = 0;
    while out.len() < n && tries < 20 * n + 100 {
        tries += 1;
        let end = |r: &mut Random, v: i32, lowest: i32, highest: i32| match r.below(400) {
            0 => lowest,
            1 => highest,
            _ => v,
        };
        let place = random.below(places) as i32 - (places / 2) as i32;
        let rank = random.below(ranks) as i32 - (ranks / 2) as i32;
        let k = (end(random, place, LOWEST_PLACE, HIGHEST_PLACE), end(random, rank, i32::MIN, i32::MAX));
        out.insert(k, random.draw() as u32);
    }
    out
}

/// The blocks that Report(x1, x2, y) reads on a sound table, block 0 included, by the words on marks.
pub fn read_by_report(table: &[u8], x1: i32, x2: i32, y: i32) -> BTreeSet<usize> {
    fn go(table: &[u8], b: usize, lo: Option<Key>, hi: Option<Key>, q: (i32, i32, i32), out: &mut BTreeSet<usize>) {
        out.insert(b);
        let n = Node::read(block(table, b));
        for (j, e) in n.entries.iter().enumerate() {
            let clo = if j == 0 { lo } else { e.low };
            let chi = n.entries.get(j + 1).map_or(hi, |f| f.low);
            if e.size > 0 && e.top.unwrap().1 >= q.2 && meets(q.0, q.1, clo, chi) {
                go(table, e.block, clo, chi, q, out);
            }
        }
    }
    let mut out = BTreeSet::from([0]);
    go(table, root(table), None, None, (x1, x2, y), &mut out);
    out
}

/// The blocks that a Report of many ranges marks: block 0, and those that any of the reports reads.
pub fn read_by_many(table: &[u8], ranges: &[(i32, i32, i32)]) -> BTreeSet<usize> {
    let mut out = BTreeSet::from([0]);
    for (x1, x2, y) in ranges {
        out.extend(read_by_report(table, *x1, *x2, *y));
    }
    out
}
