//! Request 2026-03, read plainly: the tour that a list of spots is pressed to, what a Report reads of it, and which bytes keep its layout.

use crate::layout::{by_rank, key, BLOCK, KEY, SPOT};
use crate::{in_limits, stretches, Key};
use std::collections::{BTreeMap, BTreeSet};

/// "place blocks of 64 spots", and as many in a fused block.
const FULL: usize = 64;
/// "the length in four bytes, version byte 1, three zero bytes".
const HEAD: usize = 8;
/// "four bytes with its number of spots, then its lowest and highest identity (place order) and the two whose passing made and ended it".
const ENTRY: usize = 4 + 4 * KEY;
const MOST: usize = 16;

/// A block other than the catalogue, as it was made.
struct Tile {
    spots: Vec<(Key, u32)>,
    made: Option<Key>,
    ended: Option<Key>,
}

impl Tile {
    /// Those left once p is passed.
    fn left(&self, p: Key) -> impl Iterator<Item = (Key, u32)> + '_ {
        self.spots.iter().copied().filter(move |s| by_rank(s.0) > by_rank(p))
    }

    fn low(&self) -> Key {
        self.spots[0].0
    }

    fn high(&self) -> Key {
        self.spots[self.spots.len() - 1].0
    }
}

/// "the upward sweep in rank order", up to the first spot of this rank or above, or past all: the blocks made, and which of them stand then, from left to right.
fn sweep(spots: &BTreeMap<Key, u32>, y: Option<i32>) -> (Vec<Tile>, Vec<usize>) {
    let all: Vec<(Key, u32)> = spots.iter().map(|(k, t)| (*k, *t)).collect();
    let mut tiles: Vec<Tile> = all.chunks(FULL).map(|s| Tile { spots: s.to_vec(), made: None, ended: None }).collect();
    let mut standing: Vec<usize> = (0..tiles.len()).collect();
    let mut order: Vec<Key> = spots.keys().copied().filter(|k| y.is_none_or(|y| k.1 < y)).collect();
    order.sort_by_key(|k| by_rank(*k));
    for p in order {
        // "once a pair has 64 spots left; of two pairs the left"
        let left = |pair: &[usize]| pair.iter().map(|i| tiles[*i].left(p).count()).sum::<usize>();
        if let Some(at) = standing.windows(2).position(|pair| left(pair) <= FULL) {
            let pair = [standing[at], standing[at + 1]];
            let spots = pair.iter().flat_map(|i| tiles[*i].left(p)).collect();
            for i in pair {
                tiles[i].ended = Some(p);
            }
            standing.splice(at..at + 2, [tiles.len()]);
            tiles.push(Tile { spots, made: Some(p), ended: None });
        }
    }
    (tiles, standing)
}

fn put_key(out: &mut Vec<u8>, k: Option<Key>) {
    // "zero if none"
    let (place, rank) = k.unwrap_or((0, 0));
    out.extend(place.to_be_bytes());
    out.extend(rank.to_be_bytes());
}

/// The bytes of the tour.
pub fn pressed(spots: &BTreeMap<Key, u32>) -> Vec<u8> {
    let (tiles, _) = sweep(spots, None);
    let length = BLOCK * (1 + tiles.len());
    let mut out = (length as u32).to_be_bytes().to_vec();
    out.extend([1, 0, 0, 0]);
    for tile in &tiles {
        out.extend((tile.spots.len() as u32).to_be_bytes());
        for k in [Some(tile.low()), Some(tile.high()), tile.made, tile.ended] {
            put_key(&mut out, k);
        }
    }
    for (i, tile) in tiles.iter().enumerate() {
        // "unused bytes zero"
        out.resize(BLOCK * (1 + i), 0);
        for (k, track) in &tile.spots {
            put_key(&mut out, Some(*k));
            out.extend(track.to_be_bytes());
        }
    }
    out.resize(length, 0);
    out
}

/// "just the catalogue and each block standing once all ranks under y are passed whose span of places meets the range".
pub fn read_of_tour(spots: &BTreeMap<Key, u32>, x1: i32, x2: i32, y: i32) -> BTreeSet<usize> {
    let (tiles, standing) = sweep(spots, Some(y));
    let meets = |i: &usize| stretches(x1, x2).any(|(first, last)| tiles[*i].low().0 <= last && first <= tiles[*i].high().0);
    standing.into_iter().filter(meets).map(|i| i + 1).chain([0]).collect()
}

/// What the catalogue of a tour says of a block.
struct Entry {
    spots: usize,
    low: Key,
    high: Key,
    made: Key,
    ended: Key,
}

impl Entry {
    fn of(tour: &[u8], b: usize) -> Entry {
        let s = &tour[HEAD + ENTRY * (b - 1)..];
        let [low, high, made, ended] = [0, 1, 2, 3].map(|i| key(&s[4 + KEY * i..]));
        Entry { spots: u32::from_be_bytes([s[0], s[1], s[2], s[3]]) as usize, low, high, made, ended }
    }

    /// Which identities are none is told by where the block stands: half of the blocks, the catalogue among them, are not fused, and the last one is never ended.
    fn keeps(&self, b: usize, of: usize) -> bool {
        let is_none = [(self.made, b <= of / 2), (self.ended, b + 1 == of)];
        let sized = if b == of / 2 { (1..=FULL).contains(&self.spots) } else { self.spots == FULL };
        let ends = if self.spots == 1 { self.low == self.high } else { self.low < self.high };
        let spans = ends && in_limits(self.low.0) && in_limits(self.high.0);
        sized && spans && is_none.iter().all(|(k, none)| if *none { *k == (0, 0) } else { in_limits(k.0) })
    }

    fn stands(&self, b: usize, of: usize, y: i32) -> bool {
        (b <= of / 2 || self.made.1 < y) && (b + 1 == of || self.ended.1 >= y)
    }

    fn meets(&self, x1: i32, x2: i32) -> bool {
        stretches(x1, x2).any(|(first, last)| self.low.0 <= last && first <= self.high.0)
    }

    fn spans(&self, k: Key) -> bool {
        (self.low..=self.high).contains(&k)
    }

    /// A fused block is made of two: of one of them its maker, which ended both, and of one of them each of its spots, left once the maker is passed.
    fn made_of(&self, pair: [&Entry; 2]) -> bool {
        let of_one = |k: Key| pair.iter().any(|e| e.spans(k));
        of_one(self.made) && [self.low, self.high].into_iter().all(|k| of_one(k) && by_rank(self.made) < by_rank(k))
    }

    /// "The others begin with their spots in place order", as many as the entry says and from its lowest to its highest identity, those of a fused block left once its maker is passed;
    /// "unused bytes zero".
    fn leads_to(&self, b: usize, of: usize, block: &[u8]) -> bool {
        let (used, unused) = block.split_at(SPOT * self.spots);
        let keys: Vec<Key> = used.chunks(SPOT).map(key).collect();
        let ends = keys.first() == Some(&self.low) && keys.last() == Some(&self.high);
        let left = b <= of / 2 || keys.iter().all(|k| by_rank(self.made) < by_rank(*k));
        ends && left && keys.windows(2).all(|k| k[0] < k[1]) && unused.iter().all(|x| *x == 0)
    }
}

/// What entries show of each other: place blocks one behind the other, makers one after the other, and each fused block in the place of the first two side by side that its maker ended.
fn agree(entries: &[(usize, Entry)]) -> bool {
    let all: Vec<&Entry> = entries.iter().map(|(_, e)| e).collect();
    let (places, fused) = all.split_at(all.len().div_ceil(2));
    let mut standing = places.to_vec();
    for z in fused {
        let ended = |pair: &[&Entry]| pair.iter().all(|e| e.ended == z.made);
        match standing.windows(2).position(ended) {
            Some(at) if z.made_of([standing[at], standing[at + 1]]) => drop(standing.splice(at..at + 2, [*z])),
            _ => return false,
        }
    }
    places.windows(2).all(|e| e[0].high < e[1].low) && fused.windows(2).all(|e| by_rank(e[0].made) < by_rank(e[1].made))
}

/// The blocks that a Report reads of any bytes of 1 to 16 blocks, by what their catalogue says; none where a block read breaks its layout.
pub fn read_of_bytes(tour: &[u8], x1: i32, x2: i32, y: i32) -> Option<BTreeSet<usize>> {
    let m = tour.len() / BLOCK;
    assert!(tour.len() % BLOCK == 0 && (1..=MOST).contains(&m));
    let head = [&(tour.len() as u32).to_be_bytes()[..], &[1, 0, 0, 0]].concat();
    let unused = &tour[HEAD + ENTRY * (m - 1)..BLOCK];
    if !tour.starts_with(&head) || m > 1 && m % 2 == 1 || unused.iter().any(|x| *x != 0) {
        return None;
    }
    let entries: Vec<(usize, Entry)> = (1..m).map(|b| (b, Entry::of(tour, b))).collect();
    if entries.iter().any(|(b, e)| !e.keeps(*b, m)) || !agree(&entries) {
        return None;
    }
    let mut read = BTreeSet::from([0]);
    for (b, e) in entries.into_iter().filter(|(b, e)| e.stands(*b, m, y) && e.meets(x1, x2)) {
        if !e.leads_to(b, m, &tour[BLOCK * b..BLOCK * (b + 1)]) {
            return None;
        }
        read.insert(b);
    }
    Some(read)
}

#[cfg(test)]
mod tests {
    use super::*;

    fn list(keys: impl Iterator<Item = Key>) -> BTreeMap<Key, u32> {
        keys.map(|k| (k, 7)).collect()
    }

    /// Two place blocks of 64 and 1; the first passing leaves them 64 together.
    #[test]
    fn sixty_five_spots() {
        let spots = list((0..65).map(|i| (i, i)));
        let (tiles, standing) = sweep(&spots, None);
        assert_eq!(tiles.iter().map(|t| t.spots.len()).collect::<Vec<_>>(), [64, 1, 64]);
        assert_eq!((tiles[0].ended, tiles[1].ended, tiles[2].made, standing), (Some((0, 0)), Some((0, 0)), Some((0, 0)), vec![2]));
        assert_eq!(tiles[2].low(), (1, 1));
        let read = |x1, x2, y| read_of_tour(&spots, x1, x2, y).into_iter().collect::<Vec<_>>();
        assert_eq!(read(0, 64, 0), [0, 1, 2]);
        assert_eq!(read(0, 64, 1), [0, 3]);
        assert_eq!(read(0, 0, 1), [0]);
        assert_eq!(read(64, 64, 0), [0, 2]);
        assert_eq!(read(64, 0, 65), [0, 3]);
        assert_eq!(read(70, -1, 65), [0]);
    }

    /// Always twice as many blocks as place blocks, the last one never ended, and what the catalogue says leads to what the sweep leaves.
    #[test]
    fn blocks_of_every_number_of_spots() {
        for n in 0..=512 {
            let spots = list((0..n).map(|i| (i / 2, 37 * i % 101)));
            let tour = pressed(&spots);
            let m = tour.len() / BLOCK;
            assert_eq!(m, (2 * spots.len().div_ceil(FULL)).max(1));
            let (_, standing) = sweep(&spots, None);
            assert_eq!(standing.last().map_or(1, |last| last + 2), m);
            for (x1, x2, y) in [(i32::MIN, i32::MAX, i32::MIN), (100, 20, 50), (20, 100, 50), (0, 500, i32::MAX)] {
                assert_eq!(read_of_bytes(&tour, x1, x2, y), Some(read_of_tour(&spots, x1, x2, y)));
            }
        }
    }
}
