//! Histories of additions and withdrawals for tests and benchmarks: each kind chooses its next call by what is live.

use crate::layout::{BLOCK, FEWEST_BLOCKS, MOST_BLOCKS, SPOTS_A_BLOCK};
use crate::{in_limits, Key, Random, HIGHEST_PLACE, LOWEST_PLACE};
use std::collections::{BTreeMap, BTreeSet};

#[derive(Clone, Copy, Debug, PartialEq, Eq)]
pub enum Change {
    Add(Key, u32),
    Withdraw(Key),
}

impl Change {
    pub fn key(self) -> Key {
        match self {
            Change::Add(k, _) | Change::Withdraw(k) => k,
        }
    }

    /// The same change of a spot of this place.
    pub fn at(self, place: i32) -> Change {
        match self {
            Change::Add((_, rank), track) => Change::Add((place, rank), track),
            Change::Withdraw((_, rank)) => Change::Withdraw((place, rank)),
        }
    }
}

#[derive(Clone, Copy, Debug, PartialEq, Eq)]
pub enum Kind {
    /// places and ranks at random, half of the withdrawals of live spots
    Random,
    /// places rise, ranks are at random; the oldest are withdrawn
    Rising,
    /// always the highest in rank order is withdrawn
    TopWithdrawn,
    /// the table stays at capacity: one out, one in
    AtCapacity,
}

pub const KINDS: [Kind; 4] = [Kind::Random, Kind::Rising, Kind::TopWithdrawn, Kind::AtCapacity];

/// The number that the lengths of a table and a work area decide alone: 1, 2, or 0.
pub fn by_lengths(table: usize, work: usize) -> u32 {
    if table % BLOCK != 0 || !(FEWEST_BLOCKS..=MOST_BLOCKS).contains(&(table / BLOCK)) {
        return 1;
    }
    if work < table {
        return 2;
    }
    0
}

/// The live spots, in place order and in rank order.
#[derive(Clone, Default)]
pub struct Live {
    pub spots: BTreeMap<Key, u32>,
    by_rank: BTreeSet<(i32, i32)>,
}

impl Live {
    pub fn new() -> Live {
        Live::default()
    }

    /// The number that the call gives with a table and a work area of these lengths, by the plain list alone: 1, 2, 9, 4, or 0, after which the list has changed.
    pub fn apply(&mut self, c: Change, table: usize, work: usize) -> u32 {
        let early = by_lengths(table, work);
        if early != 0 {
            return early;
        }
        if !in_limits(c.key().0) {
            return 9;
        }
        match c {
            Change::Add(k, t) => {
                if self.spots.len() >= SPOTS_A_BLOCK * (table / BLOCK - 1) && !self.spots.contains_key(&k) {
                    return 4;
                }
                self.spots.insert(k, t);
                self.by_rank.insert((k.1, k.0));
            }
            Change::Withdraw(k) => {
                if self.spots.remove(&k).is_some() {
                    self.by_rank.remove(&(k.1, k.0));
                }
            }
        }
        0
    }

    fn some(&self, random: &mut Random) -> Option<Key> {
        let at = (random.place(), random.draw() as i32);
        let after = self.spots.range(at..).next();
        after.or_else(|| self.spots.iter().next()).map(|x| *x.0)
    }
}

/// A place inside the limits and a rank, at random.
pub fn anywhere(random: &mut Random) -> Key {
    (random.place(), (random.draw() >> 20) as i32)
}

/// A place outside the limits: one beyond them, an end of the 32 bits, or any other.
pub fn outside(random: &mut Random) -> i32 {
    match random.below(6) {
        0 => LOWEST_PLACE - 1,
        1 => HIGHEST_PLACE + 1,
        2 => i32::MIN,
        3 => i32::MAX,
        _ => loop {
            let place = random.draw() as i32;
            if !in_limits(place) {
                return place;
            }
        },
    }
}

/// The next call, of a place inside the limits; `fill` is the number of spots around which the history moves.
pub fn next(kind: Kind, step: usize, live: &Live, capacity: usize, fill: usize, random: &mut Random) -> Change {
    let n = live.spots.len();
    let track = random.draw() as u32;
    let add = match kind {
        Kind::AtCapacity => n < capacity || random.below(20) == 0,
        _ if n < fill / 2 => true,
        _ if n > fill + fill / 8 => false,
        _ => random.below(2) == 0,
    };
    match (kind, add) {
        (Kind::Rising, true) => Change::Add((step as i32, random.draw() as i32), track),
        (Kind::Rising, false) => Change::Withdraw(*live.spots.keys().next().unwrap_or(&(0, 0))),
        (Kind::TopWithdrawn, false) => Change::Withdraw(live.by_rank.iter().next_back().map_or((0, 0), |r| (r.1, r.0))),
        (_, true) if random.below(8) == 0 => Change::Add(live.some(random).unwrap_or((0, 0)), track),
        (_, true) => Change::Add(anywhere(random), track),
        (_, false) if random.below(8) == 0 => Change::Withdraw(anywhere(random)),
        (_, false) => Change::Withdraw(live.some(random).unwrap_or((0, 0))),
    }
}

#[cfg(test)]
mod tests {
    use super::*;

    const TABLE: usize = 9 * BLOCK;

    /// "before 3 and after all others that come before 3": after 1 and 2, and before 4.
    #[test]
    fn numbers_in_their_order() {
        let mut live = Live::new();
        for rank in 0..128 {
            assert_eq!(live.apply(Change::Add((0, rank), 7), TABLE, TABLE), 0);
        }
        for change in [Change::Add((0, 128), 7), Change::Withdraw((0, 128))] {
            let full = if matches!(change, Change::Add(..)) { 4 } else { 0 };
            for place in [LOWEST_PLACE, 0, HIGHEST_PLACE] {
                assert_eq!(live.apply(change.at(place), TABLE, TABLE), full);
                assert_eq!(live.apply(change.at(place), TABLE, TABLE - 1), 2);
            }
            for place in [LOWEST_PLACE - 1, HIGHEST_PLACE + 1, i32::MIN, i32::MAX] {
                assert_eq!(live.apply(change.at(place), TABLE, TABLE), 9);
                assert_eq!(live.apply(change.at(place), TABLE, TABLE - 1), 2);
                for table in [0, TABLE - 1, TABLE - BLOCK, TABLE + 1, 4097 * BLOCK] {
                    assert_eq!(live.apply(change.at(place), table, 0), 1);
                }
            }
        }
        assert_eq!(live.apply(Change::Add((0, 127), 8), TABLE, TABLE + 5), 0);
        assert_eq!((live.spots.len(), live.spots[&(0, 127)]), (128, 8));
    }

    #[test]
    fn places_inside_and_outside() {
        let mut random = Random(0x0700);
        let inside: Vec<i32> = (0..20_000).map(|_| random.place()).collect();
        assert!(inside.iter().all(|p| in_limits(*p)) && inside.contains(&LOWEST_PLACE) && inside.contains(&HIGHEST_PLACE));
        assert!((0..1000).all(|_| !in_limits(outside(&mut random))));
        for kind in KINDS {
            let mut live = Live::new();
            for step in 0..1000 {
                let change = next(kind, step, &live, 128, 96, &mut random);
                assert_ne!(live.apply(change, TABLE, TABLE), 9, "{kind:?}: {change:?}");
            }
        }
    }
}
