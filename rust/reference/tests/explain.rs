//! Each rule broken in one place: the rule, the block, the bytes and the entry that leads there are named.

use spot_reference::{faults, make, some_spots, sound, Fault, Random, Way, HIGHEST_PLACE, LOWEST_PLACE, MOST_FAULTS};
use std::ops::Range;

/// A table with three levels and changes waiting; block 1 is the root, block 2 its first child, block 3 the first leaf.
fn table() -> Vec<u8> {
    let mut random = Random(11);
    let spots = some_spots(1500, 100_000, 100_000, &mut random);
    let made = make(160, &spots, true, &mut random);
    assert_eq!((made.levels, faults(&made.table), sound(&made.table)), (3, vec![], Ok(made.live)));
    made.table
}

/// The way to a block of the table by an entry of another, counted from 1.
fn by_entry(block: usize, entry: usize) -> Way {
    Way::Entry { block, entry, of: table()[2048 * block + 7] as usize }
}

/// The fault of this rule, block and bytes that shows after a change. The first of all is what `sound` gives.
#[track_caller]
fn shown(change: impl Fn(&mut [u8]), rule: usize, block: usize, bytes: Range<usize>, way: Way) -> Fault {
    let mut t = table();
    change(&mut t);
    let all = faults(&t);
    assert_eq!(sound(&t).as_ref(), Err(&all[0]));
    let fault = all.iter().find(|f| (f.rule, f.block, f.bytes.clone(), f.way) == (rule, block, bytes.clone(), way));
    fault.unwrap_or_else(|| panic!("{all:#?}")).clone()
}

/// The same for one byte that is set.
#[track_caller]
fn set(block: usize, at: usize, to: u8, rule: usize, shows: usize, bytes: Range<usize>, way: Way) -> Fault {
    shown(|t| t[2048 * block + at] = to, rule, shows, bytes, way)
}

#[test]
fn block_0() {
    let flip = |at: usize, bit: u8, rule: usize, bytes: Range<usize>| shown(|t| t[at] ^= bit, rule, 0, bytes, Way::First);
    flip(3, 1, 1, 0..4);
    flip(4, 3, 6, 4..5);
    flip(5, 8, 6, 5..6);
    flip(7, 200, 1, 6..8);
    flip(8, 1, 6, 8..12);
    flip(12, 8, 1, 12..13);
    flip(523, 8, 1, 523..524);
    flip(2047, 1, 6, 2047..2048);
    // one below the number of live spots
    let low = shown(|t| t[11] -= 1, 6, 0, 8..12, Way::First);
    assert!(low.what.contains("below the number of live spots"), "{low}");
}

#[test]
fn lengths() {
    for length in [0, 100, 2048 * 8, 2048 * 9 + 1, 2048 * 4097] {
        let fault = sound(&vec![0; length]).unwrap_err();
        assert_eq!((fault.rule, fault.block, fault.way), (1, 0, Way::First));
    }
}

#[test]
fn nodes() {
    let (first, leaf) = (by_entry(1, 1), by_entry(2, 1));
    shown(|t| t[2048 + 1] ^= 1, 6, 1, 0..2, Way::Root);
    set(2, 2, 0, 6, 2, 2..3, first);
    set(2, 3, 2, 2, 2, 3..4, first);
    set(3, 5, 1, 5, 3, 5..7, leaf);
    set(1, 4, 31, 5, 1, 4..7, Way::Root);
    set(1, 4, 31, 5, 2, 4..7, first);
    set(1, 5, 65, 5, 1, 4..7, Way::Root);
    set(1, 7, 1, 2, 1, 7..8, Way::Root);
    set(2, 7, 3, 2, 2, 7..8, first);
    set(3, 7, 1, 2, 3, 7..8, leaf);
    set(3, 2047, 3, 6, 3, 2047..2048, leaf);
}

#[test]
fn entries() {
    let first = by_entry(1, 1);
    // the second entry of the root leads to the first child, which is reached already
    set(1, 37, 2, 1, 1, 36..38, Way::Root);
    set(1, 11, 1, 6, 1, 11..12, Way::Root);
    set(1, 12, 1, 6, 1, 12..20, Way::Root);
    let size = shown(|t| t[2048 + 10] -= 1, 6, 2, 4..5, first);
    assert!(size.what.ends_with("(byte 10 of block 1)"), "{size}");
    // the lowest identity of the third entry falls under that of the second
    set(1, 68, 0x80, 3, 1, 68..76, Way::Root);
    for (at, there) in [(27, "(bytes 20-27 of block 1)"), (35, "(bytes 28-35 of block 1)")] {
        let mut t = table();
        t[2048 + at] ^= 1;
        let fault = sound(&t).unwrap_err();
        assert_eq!((fault.rule, fault.block, fault.way), (6, 2, first));
        assert!(fault.what.ends_with(there), "{fault}");
    }
}

#[test]
fn orders() {
    let t = table();
    let p = 8 + 28 * t[2048 + 7] as usize;
    let i = p + 12 * t[2048 + 4] as usize;
    assert!(t[2048 + 5] > 0);
    shown(|t| t[2048 + p..][..24].rotate_left(12), 3, 1, p..p + 20, Way::Root);
    shown(|t| t.copy_within(2048 + p..2048 + p + 8, 2048 + i), 3, 1, i..i + 8, Way::Root);
    // a waiting addition, and a point of a child, with the highest rank there is
    let highest = i32::MAX.to_be_bytes();
    let fault = shown(|t| t[2048 + i + 4..][..4].copy_from_slice(&highest), 4, 1, i..i + 8, Way::Root);
    assert!(fault.to_string().starts_with(&format!("block 1, bytes {i}-{}, breaks rule 4: place ", i + 7)), "{fault}");
    let p = 8 + 28 * t[2 * 2048 + 7] as usize;
    let fault = shown(|t| t[2 * 2048 + p + 4..][..4].copy_from_slice(&highest), 4, 2, p..p + 8, by_entry(1, 1));
    assert!(fault.what.contains("in P does not lie below the lowest of P of block 1, which is place "), "{fault}");
    // the first place of a second child falls out of its range
    let second = t[2048 + 37] as usize;
    let p = 8 + 28 * t[2048 * second + 7] as usize;
    set(second, p, 0x80, 3, second, p..p + 8, by_entry(1, 2));
}

/// A place outside the limits in each field that stores one: rule 7, with the four bytes of the place.
#[test]
fn limits() {
    let t = table();
    let [p, i, d, c] = [4, 5, 6, 7].map(|at| t[2048 + at] as usize);
    assert!(p > 0 && i > 0 && d > 0);
    let points = 8 + 28 * c;
    let (inserts, deletes) = (points + 12 * p, points + 12 * (p + i));
    let far = |at: usize, place: i32| {
        let change = |t: &mut [u8]| t[2048 + at..][..4].copy_from_slice(&place.to_be_bytes());
        let fault = shown(change, 7, 1, at..at + 4, Way::Root);
        assert!(fault.what.contains(&format!("place {place} rank ")), "{fault}");
        assert!(fault.what.ends_with("outside the limits of places, -1,000,000 to 1,000,000 cm"), "{fault}");
        fault.what
    };
    for place in [HIGHEST_PLACE + 1, i32::MAX] {
        assert!(far(inserts - 12, place).contains(" in P lies outside"));
        assert!(far(deletes - 12, place).contains(" in I lies outside"));
        assert!(far(deletes + 8 * (d - 1), place).contains(" in D lies outside"));
        assert!(far(8 + 28 * (c - 1) + 4, place).starts_with(&format!("the lowest identity of entry {c} is ")));
        assert!(far(8 + 28 * (c - 1) + 12, place).starts_with(&format!("entry {c} says that the highest of P is ")));
        assert!(far(8 + 28 * (c - 1) + 20, place).starts_with(&format!("entry {c} says that the lowest of P is ")));
    }
    for place in [LOWEST_PLACE - 1, i32::MIN] {
        assert!(far(points, place).contains(" in P lies outside"));
        assert!(far(inserts, place).contains(" in I lies outside"));
        assert!(far(deletes, place).contains(" in D lies outside"));
        assert!(far(36 + 4, place).starts_with("the lowest identity of entry 2 is "));
        assert!(far(8 + 12, place).starts_with("entry 1 says that the highest of P is "));
        assert!(far(8 + 20, place).starts_with("entry 1 says that the lowest of P is "));
    }
    // the limits themselves are places; the first entry's range field is unused, and only has to be zero
    for (at, place) in [(inserts - 12, HIGHEST_PLACE), (points, LOWEST_PLACE), (8 + 4, i32::MAX)] {
        let mut t = table();
        t[2048 + at..][..4].copy_from_slice(&place.to_be_bytes());
        assert!(faults(&t).iter().all(|f| f.rule != 7), "{at} {place}");
    }
}

#[test]
fn noise_has_so_many_faults() {
    let mut random = Random(3);
    let mut most = 0;
    for _ in 0..200 {
        let mut t = table();
        (0..400).for_each(|_| t[2048 + random.below(20 * 2048)] = random.draw() as u8);
        most = most.max(faults(&t).len());
    }
    assert_eq!(most, MOST_FAULTS);
}
