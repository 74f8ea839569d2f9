//! The plain reading of the rules against the library's verdict: on sound tables of many histories, and on tables with a few bytes changed.

use crate::spot::{Key, Spot};
use crate::store::{on_deep_stack, Table, BLOCK, HIGHEST_PLACE, LOWEST_PLACE};
use crate::tree;
use proptest::prelude::*;
use spot_reference::faults;
use std::sync::OnceLock;

fn random(state: &mut u64) -> u64 {
    *state ^= *state << 13;
    *state ^= *state >> 7;
    *state ^= *state << 17;
    *state
}

/// A table after a history of additions and withdrawals.
fn table(blocks: usize, calls: usize, seed: u64, ranks: u64) -> Table {
    let mut state = seed;
    let mut table = Table::empty(blocks).unwrap();
    let mut live: Vec<Key> = vec![];
    for _ in 0..calls {
        let n = random(&mut state);
        if n.is_multiple_of(4) && !live.is_empty() {
            let key = live.swap_remove((n / 8) as usize % live.len());
            table.withdraw(key).unwrap();
            continue;
        }
        let place = (random(&mut state) % 5000) as i32 - 2500;
        let rank = (random(&mut state) % ranks) as i32 - 5;
        let spot = Spot { place, rank, track: n as u32 };
        if table.add(spot).is_ok() && !live.contains(&spot.key()) {
            live.push(spot.key());
        }
    }
    table
}

fn tables() -> &'static [Vec<u8>] {
    static TABLES: OnceLock<Vec<Vec<u8>>> = OnceLock::new();
    TABLES.get_or_init(|| {
        let rows = [(9, 0, 1), (9, 60, 9), (12, 300, 1000), (40, 900, 30), (90, 2500, 100_000)];
        let make =
            |(i, (blocks, calls, ranks)): (usize, &(usize, usize, u64))| table(*blocks, *calls, 1 + i as u64, *ranks).bytes().to_vec();
        on_deep_stack(|| rows.iter().enumerate().map(make).collect()).unwrap()
    })
}

fn is_sound(bytes: &[u8]) -> bool {
    on_deep_stack(|| Table::of(bytes.to_vec()).unwrap().is_sound().unwrap()).unwrap()
}

#[test]
fn sound_tables_have_no_faults() {
    for bytes in tables() {
        assert!(is_sound(bytes));
        assert_eq!(faults(bytes), []);
        let live = on_deep_stack(|| Table::of(bytes.clone()).unwrap().all().unwrap()).unwrap();
        let homes = tree::homes(&tree::nodes(bytes));
        assert_eq!(homes.len(), live.len());
        assert!(live.iter().all(|s| homes.contains_key(&s.key())));
    }
}

/// The blocks that a table uses.
fn used(bytes: &[u8]) -> Vec<usize> {
    let marked = |b: &usize| bytes[12 + b / 8] >> (b % 8) & 1 == 1;
    (0..bytes.len() / BLOCK).filter(marked).collect()
}

proptest! {
    #![proptest_config(ProptestConfig { cases: 2500, failure_persistence: None, ..ProptestConfig::default() })]

    /// Any byte of a block in use changed to any other: a reason is found exactly where the library says no.
    #[test]
    fn reasons_are_found_exactly_where_the_library_says_no(
        which in 0usize..5,
        pick in any::<prop::sample::Index>(),
        offset in prop_oneof![0usize..8, 8usize..260, 0usize..BLOCK],
        change in prop_oneof![Just(1u8), Just(255), Just(128), any::<u8>()],
    ) {
        let mut bytes = tables()[which].clone();
        let blocks = used(&bytes);
        let at = blocks[pick.index(blocks.len())] * BLOCK + offset;
        bytes[at] = bytes[at].wrapping_add(change);
        let found = faults(&bytes);
        prop_assert_eq!(is_sound(&bytes), found.is_empty(), "byte {}: {:?}", at, found);
    }

    /// A place at a limit, or outside, in any word of a block in use.
    #[test]
    fn the_same_for_places_at_the_limits(
        which in 1usize..5,
        pick in any::<prop::sample::Index>(),
        word in 2usize..BLOCK / 4,
        place in prop_oneof![Just(LOWEST_PLACE), Just(LOWEST_PLACE - 1), Just(HIGHEST_PLACE), Just(HIGHEST_PLACE + 1), any::<i32>()],
    ) {
        let mut bytes = tables()[which].clone();
        let blocks = used(&bytes);
        let at = blocks[pick.index(blocks.len())] * BLOCK + 4 * word;
        bytes[at..at + 4].copy_from_slice(&place.to_be_bytes());
        let found = faults(&bytes);
        prop_assert_eq!(is_sound(&bytes), found.is_empty(), "{} at {}: {:?}", place, at, found);
    }

    /// An identity copied over another, or one node over another.
    #[test]
    fn the_same_for_identities_and_nodes_copied(
        which in 1usize..5,
        from in any::<prop::sample::Index>(),
        to in any::<prop::sample::Index>(),
        offsets in (0usize..60, 0usize..60),
        whole in any::<bool>(),
    ) {
        let mut bytes = tables()[which].clone();
        let blocks = used(&bytes);
        let (from, to) = (blocks[from.index(blocks.len())] * BLOCK, blocks[to.index(blocks.len())] * BLOCK);
        let (from, to, size) = if whole { (from, to, BLOCK) } else { (from + 8 + 4 * offsets.0, to + 8 + 4 * offsets.1, 8) };
        bytes.copy_within(from..from + size, to);
        let found = faults(&bytes);
        prop_assert_eq!(is_sound(&bytes), found.is_empty(), "{} to {}: {:?}", from, to, found);
    }
}
