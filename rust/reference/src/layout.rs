//! How the bytes of a card lie: widths, the parts of a node, identities and tracks; the orders of identities.

use std::cmp::Reverse;

/// An identity in place order; rank order compares (rank, place), Top's answers come in `top_order`.
pub type Key = (i32, i32);

pub const BLOCK: usize = 2048;
pub const FEWEST_BLOCKS: usize = 9;
pub const MOST_BLOCKS: usize = 4096;
/// Capacity: spots for each block after block 0.
pub const SPOTS_A_BLOCK: usize = 16;

/// The limits of places, in centimetres; both are places.
pub const LOWEST_PLACE: i32 = -1_000_000;
pub const HIGHEST_PLACE: i32 = 1_000_000;

/// Whether a spot can have this place.
pub fn in_limits(place: i32) -> bool {
    (LOWEST_PLACE..=HIGHEST_PLACE).contains(&place)
}

pub const HEAD: usize = 8;
pub const ENTRY: usize = 28;
pub const SPOT: usize = 12;
pub const KEY: usize = 8;
/// The first bytes of an identity.
pub const PLACE: usize = 4;

pub fn by_rank(k: Key) -> (i32, i32) {
    (k.1, k.0)
}

/// Rising in this, the order of Top's answers: the higher rank first, of equal ranks the lower place.
pub fn top_order(k: Key) -> (Reverse<i32>, i32) {
    (Reverse(k.1), k.0)
}

pub fn key(s: &[u8]) -> Key {
    let word = |i: usize| i32::from_be_bytes([s[i], s[i + 1], s[i + 2], s[i + 3]]);
    (word(0), word(4))
}

pub fn track(s: &[u8]) -> u32 {
    u32::from_be_bytes([s[0], s[1], s[2], s[3]])
}

pub fn block(table: &[u8], b: usize) -> &[u8] {
    &table[BLOCK * b..BLOCK * (b + 1)]
}

pub fn root(table: &[u8]) -> usize {
    u16::from_be_bytes([table[6], table[7]]) as usize
}

/// Sizes and places of a node's parts.
pub struct Parts {
    pub points: usize,
    pub inserts: usize,
    pub deletes: usize,
    pub children: usize,
}

impl Parts {
    pub fn of(block: &[u8]) -> Parts {
        let [points, inserts, deletes, children] = [4, 5, 6, 7].map(|i| block[i] as usize);
        Parts { points, inserts, deletes, children }
    }

    pub fn entry_at(j: usize) -> usize {
        HEAD + ENTRY * j
    }

    pub fn points_at(&self) -> usize {
        Parts::entry_at(self.children)
    }

    pub fn inserts_at(&self) -> usize {
        self.points_at() + SPOT * self.points
    }

    pub fn deletes_at(&self) -> usize {
        self.inserts_at() + SPOT * self.inserts
    }

    pub fn used(&self) -> usize {
        self.deletes_at() + KEY * self.deletes
    }
}
