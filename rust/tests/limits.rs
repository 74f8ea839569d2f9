//! Request 2026-07, places have an end: 9 of Add and Withdraw, 3 of a stored place outside the limits, ranges that reach beyond them, and the places that are given.

use spot_reference::histories::{outside, Change, Live};
use spot_reference::{
    faults, holds, in_limits, make, nodes, read_by_many, read_by_report, reported_many, some_spots, sound, Key, Made, Node, Placed, Random,
};
use spot_table::*;
use std::collections::{BTreeMap, BTreeSet};

const INSIDE: [i32; 5] = [LOWEST_PLACE, LOWEST_PLACE + 1, 0, HIGHEST_PLACE - 1, HIGHEST_PLACE];
const OUTSIDE: [i32; 6] = [LOWEST_PLACE - 1, HIGHEST_PLACE + 1, i32::MIN, i32::MIN + 1, i32::MAX - 1, i32::MAX];
const RANKS: [i32; 5] = [i32::MIN, -1, 0, 7, i32::MAX];
const ALL: (i32, i32) = (i32::MIN, i32::MAX);

fn spot((place, rank): Key, track: u32) -> Spot {
    Spot { place, rank, track }
}

fn call(c: Change, table: &mut [u8], work: &mut [u8]) -> Answer {
    match c {
        Change::Add(k, t) => add(table, spot(k, t), work),
        Change::Withdraw(k) => withdraw(table, k.0, k.1, work),
    }
}

/// Both changes of an identity.
fn changes(k: Key) -> [Change; 2] {
    [Change::Add(k, 7), Change::Withdraw(k)]
}

/// The change gives this number with a work area of so many bytes; every byte lent is as it was, but for the work area after 3.
#[track_caller]
fn is_refused(c: Change, table: &[u8], work: usize, number: u32) {
    let (mut own, mut area) = (table.to_vec(), vec![4; work]);
    assert_eq!(call(c, &mut own, &mut area), Answer::new(number, 0), "{c:?}");
    let zeros = if number == 3 { table.len() } else { 0 };
    assert!(own == table && area[..zeros].iter().all(|x| *x == 0) && area[zeros..].iter().all(|x| *x == 4), "{c:?}");
}

#[test]
fn both_ends_are_places() {
    let len = 32 * BLOCK;
    let (mut table, mut work, mut live) = (vec![0; len], vec![4; len + 3], Live::new());
    assert_eq!(format(&mut table), Answer::new(0, 0));
    for k in INSIDE.into_iter().flat_map(|place| RANKS.map(|rank| (place, rank))) {
        assert_eq!(call(Change::Add(k, 7), &mut table, &mut work), Answer::new(0, 0), "{k:?}");
        assert_eq!(live.apply(Change::Add(k, 7), len, len), 0);
        for c in OUTSIDE.into_iter().flat_map(|place| changes((place, k.1))) {
            is_refused(c, &table, len, 9);
            assert_eq!(live.apply(c, len, len), 9);
        }
        assert_eq!(sound(&table).as_ref(), Ok(&live.spots));
    }
    for k in live.spots.keys().copied().collect::<Vec<_>>() {
        assert_eq!(call(Change::Withdraw(k), &mut table, &mut work), Answer::new(0, 0), "{k:?}");
        assert_eq!(live.apply(Change::Withdraw(k), len, len), 0);
        assert_eq!(sound(&table).as_ref(), Ok(&live.spots));
    }
}

/// "before 3 and after all others that come before 3": after 1 and 2, before 3 and 4.
#[test]
fn refusals_in_their_order() {
    let mut random = Random(0x0701);
    let full = make(12, &(0..176).map(|i| ((i, i % 7), i as u32)).collect(), false, &mut random).table;
    let waiting = make(12, &some_spots(150, 500, 500, &mut random), true, &mut random).table;
    let noise: Vec<u8> = (0..12 * BLOCK).map(|_| random.draw() as u8).collect();
    let (mut header, mut root) = (full.clone(), full.clone());
    header[600] = 1;
    root[BLOCK + 2] = 9;
    for table in [&full, &waiting, &noise, &vec![0; 12 * BLOCK], &header, &root] {
        for c in OUTSIDE.into_iter().chain([outside(&mut random)]).flat_map(|place| changes((place, 3))) {
            for blocks in [&table[1..], &table[..8 * BLOCK], &[]] {
                is_refused(c, blocks, 0, 1);
                is_refused(c, blocks, 12 * BLOCK, 1);
            }
            for work in [0, 1, BLOCK, 12 * BLOCK - 1] {
                is_refused(c, table, work, 2);
            }
            is_refused(c, table, 12 * BLOCK, 9);
            is_refused(c, table, 12 * BLOCK + 5, 9);
        }
    }
    // the same of places inside the limits
    for c in INSIDE.into_iter().flat_map(|place| changes((place, 3))) {
        is_refused(c, &full, 12 * BLOCK - 1, 2);
        [&noise, &header, &root].into_iter().for_each(|table| is_refused(c, table, 12 * BLOCK, 3));
    }
    INSIDE.into_iter().filter(|place| *place != 0).for_each(|place| is_refused(Change::Add((place, 3), 7), &full, 12 * BLOCK, 4));
}

/// A table with edited nodes, in which nothing but the limits of places is broken.
struct Edited {
    name: String,
    table: Vec<u8>,
    /// The blocks in which a place outside stands.
    blocks: Vec<usize>,
}

fn edit(made: &Made, name: &str, blocks: &[usize], change: impl Fn(usize, &mut Node)) -> Edited {
    let mut table = made.table.clone();
    for b in blocks {
        let bytes = &mut table[BLOCK * b..BLOCK * (b + 1)];
        let mut node = Node::read(bytes);
        change(*b, &mut node);
        node.write(bytes);
    }
    let name = std::format!("{name} in blocks {blocks:?}");
    let broken = faults(&table);
    assert!(!broken.is_empty() && broken.iter().all(|f| f.rule == 7), "{name}: {broken:?}");
    Edited { name, table, blocks: blocks.to_vec() }
}

/// The points of a node in rank order.
fn by_rank(node: &Node) -> Vec<Key> {
    let mut all: Vec<Key> = node.points.keys().copied().collect();
    all.sort_by_key(|k| (k.1, k.0));
    all
}

fn moved(node: &mut Node, from: Key, place: i32) {
    let track = node.points.remove(&from).unwrap();
    node.points.insert((place, from.1), track);
}

/// Every field of a node that stores a place, one after the other: the nodes at the left edge of the tree with a place below the limits, those at the right edge with one
/// above, so that orders and ranges stay.
fn edits(made: &Made) -> Vec<Edited> {
    let mut out = vec![];
    let all = nodes(&made.table);
    for (place, is_left) in [(LOWEST_PLACE - 1, true), (i32::MIN, true), (HIGHEST_PLACE + 1, false), (i32::MAX, false)] {
        let edge = || all.iter().filter(move |n| if is_left { n.from.is_none() } else { n.to.is_none() });
        for at in edge() {
            let (ranks, b) = (by_rank(&at.node), at.block);
            if ranks.len() > 2 {
                // neither the highest nor the lowest, which the entry above shows
                let middle = ranks[ranks.len() / 2];
                out.push(edit(made, "P", &[b], |_, node| moved(node, middle, place)));
            }
            if at.node.level > 0 && ranks.len() >= 32 {
                out.push(edit(made, "I", &[b], |_, node| node.inserts.extend([((place, i32::MIN), 9)])));
                out.push(edit(made, "D", &[b], |_, node| node.deletes.extend([(place, i32::MIN)])));
            }
            // the highest or the lowest, in the child and in the entry that leads to it
            let Some(parent) = edge().find(|n| n.node.entries.iter().any(|e| e.block == b)) else { continue };
            let j = parent.node.entries.iter().position(|e| e.block == b).unwrap();
            let ends = [("highest", ranks.last()), ("lowest", ranks.first())];
            for (name, old) in ends.into_iter().filter_map(|(name, k)| Some((name, *k?))) {
                let mut child = at.node.clone();
                moved(&mut child, old, place);
                let keys = by_rank(&child);
                out.push(edit(made, name, &[b, parent.block], |block, node| {
                    if block == b {
                        return moved(node, old, place);
                    }
                    (node.entries[j].top, node.entries[j].bottom) = (keys.last().copied(), keys.first().copied());
                }));
            }
        }
    }
    out
}

/// Few enough spots to lie all in the root, whose children are empty: their ranges may begin anywhere.
fn empty_children(random: &mut Random) -> Made {
    let made = make(12, &(0..40).map(|i| ((i, i % 7), i as u32)).collect(), false, random);
    assert_eq!((made.levels, Node::read(&made.table[BLOCK..][..BLOCK]).entries.len()), (2, 2));
    made
}

/// Ranges of all kinds, narrow ones at both edges among them.
fn ranges() -> Vec<Range> {
    let pairs =
        [ALL, (-3000, -400), (-100, 100), (400, 3000), (100, -100), (0, 0), (400, i32::MAX), (i32::MIN, -400), (i32::MAX, i32::MIN)];
    pairs.into_iter().flat_map(|(x1, x2)| [i32::MIN, 0, 900].map(|y| Range { x1, x2, y })).collect()
}

/// An answer, and all that the call may write.
type Given = (Answer, Vec<u8>);

/// A call with an output and a read map.
fn lend(call: impl FnOnce(&mut [u8], &mut [u8]) -> Answer) -> Given {
    let (mut out, mut map) = (vec![0xEE; SPOT * 3000], [0xEE; MAP]);
    let answer = call(&mut out, &mut map);
    (answer, [&out[..], &map].concat())
}

/// Check says no; every call that reads such a block is 3, and every other one answers as if nothing were there. How many of both.
#[track_caller]
fn is_broken(made: &Made, edited: &Edited) -> [usize; 2] {
    let Edited { name, table, blocks } = edited;
    let mut numbers = [0, 0];
    let mut asks = |read: BTreeSet<usize>, call: &dyn Fn(&[u8]) -> Given| {
        let (due, given) = (call(&made.table), call(table));
        let is_read = blocks.iter().any(|b| read.contains(b));
        if is_read {
            assert!(given.0 == Answer::new(3, 0) && given.1.iter().all(|x| *x == 0xEE), "{name}: {:?}", given.0);
        } else {
            assert!(given == due, "{name}: {:?}", given.0);
        }
        numbers[is_read as usize] += 1;
    };
    assert_eq!(check(table), Answer::new(0, 0), "{name}");
    let with_spots = nodes(&made.table).iter().filter(|n| !n.node.points.is_empty()).map(|n| n.block).collect();
    asks(with_spots, &|t| (count(t), vec![]));
    for r in ranges() {
        let (Range { x1, x2, y }, near) = (r, Range { x1: 0, x2: 3, y: 0 });
        asks(read_by_report(&made.table, x1, x2, y), &|t| lend(|out, map| report(t, Range { x1, x2, y }, out, map)));
        asks(read_by_many(&made.table, &[(near.x1, near.x2, near.y), (x1, x2, y)]), &|t| {
            let mut counts = [0xEEEE_EEEE; 2];
            let (answer, bytes) = lend(|out, map| report_many(t, &[near, r], &mut counts, out, map));
            (answer, [bytes, counts.map(u32::to_be_bytes).concat()].concat())
        });
        let read = |k: u32, allowance: u32| spot_reference::top_within(&made.table, x1, x2, k, allowance).read.into_iter().collect();
        for (k, allowance) in [(0, 9), (5, 0), (1, 1), (5, 2), (40, 5), (u32::MAX, u32::MAX)] {
            asks(read(k, allowance), &|t| lend(|out, map| top_within(t, Places { x1, x2 }, k, allowance, out, map).0));
        }
        for k in [0, 1, 30, u32::MAX] {
            asks(read(k, u32::MAX), &|t| lend(|out, map| top(t, Places { x1, x2 }, k, out, map)));
        }
    }
    for k in [LOWEST_PLACE, -600, -1, 0, 600, HIGHEST_PLACE].map(|place| (place, 3)) {
        // the nodes on the way to the identity
        let on_path = |n: &Placed| n.from.is_none_or(|from| from <= k) && n.to.is_none_or(|to| k < to);
        let is_read = nodes(&made.table).iter().any(|n| on_path(n) && blocks.contains(&n.block));
        for c in changes(k) {
            if is_read {
                is_refused(c, table, table.len() + 3, 3);
            } else {
                let (mut own, mut work) = (table.to_vec(), vec![4; table.len()]);
                assert_eq!(call(c, &mut own, &mut work), Answer::new(0, 0), "{name}: {c:?}");
            }
            numbers[is_read as usize] += 1;
        }
    }
    let (mut own, mut work) = (table.to_vec(), vec![4; table.len() + 3]);
    assert_eq!(rebuild(&mut own, &mut work), Answer::new(3, 0), "{name}");
    assert!(own == *table && work[..table.len()].iter().all(|x| *x == 0) && work[table.len()..] == [4; 3], "{name}");
    numbers
}

/// A table of three levels whose nodes have room for one more change, so that one goes no further than its own path.
fn roomy(waiting: bool, random: &mut Random) -> Made {
    let spots = (0..1100).map(|i| ((i - 550, i * 7 % 1000), i as u32)).collect();
    loop {
        let made = make(100, &spots, waiting, random);
        let has_room = |n: &Node| n.points.len() > 32 && n.inserts.len() < 64 && n.deletes.len() < 16;
        if nodes(&made.table).iter().all(|n| n.node.level == 0 || has_room(&n.node)) {
            assert!(made.levels >= 3);
            return made;
        }
    }
}

#[test]
fn a_stored_place_outside_is_3() {
    let mut random = Random(0x0702);
    let mut numbers = BTreeMap::new();
    for waiting in [false, true] {
        let made = roomy(waiting, &mut random);
        for edited in edits(&made) {
            let field = edited.name.split(' ').next().unwrap().to_string();
            let [kept, refused] = is_broken(&made, &edited);
            let sums = numbers.entry(field).or_insert([0, 0]);
            *sums = [sums[0] + kept, sums[1] + refused];
        }
    }
    assert_eq!(numbers.keys().collect::<Vec<_>>(), ["D", "I", "P", "highest", "lowest"]);
    assert!(numbers.values().all(|[kept, refused]| *kept > 100 && *refused > 100), "{numbers:?}");
}

/// Where a child's range begins, from the second entry on; the first entry's field is unused and zero, and so are the highest and the lowest of an empty P.
#[test]
fn a_range_that_begins_outside_is_3() {
    let mut random = Random(0x0703);
    let made = empty_children(&mut random);
    assert_eq!(check(&made.table), Answer::new(0, 1));
    for place in OUTSIDE {
        let edited = edit(&made, "low", &[1], |_, node| node.entries[1].low = Some((place, 0)));
        let [_, refused] = is_broken(&made, &edited);
        assert!(refused > 100);
    }
    for place in INSIDE {
        let mut table = made.table.clone();
        table[BLOCK + 40..][..4].copy_from_slice(&place.to_be_bytes());
        assert_eq!((check(&table), count(&table)), (Answer::new(0, 1), Answer::new(0, 40)));
        assert_eq!(sound(&table).as_ref(), Ok(&made.live));
    }
}

/// An entry that shows a place outside, where its child has none: the node that has the entry is enough.
#[test]
fn an_entry_alone_is_3() {
    let mut random = Random(0x0704);
    let made = make(100, &(0..1100).map(|i| ((i - 550, i * 7 % 1000), i as u32)).collect(), false, &mut random);
    let entries = Node::read(&made.table[BLOCK..][..BLOCK]).entries.len();
    for (at, place) in [(12, LOWEST_PLACE - 1), (20, LOWEST_PLACE - 1), (12, HIGHEST_PLACE + 1), (20, HIGHEST_PLACE + 1)] {
        let j = if place < 0 { 0 } else { entries - 1 };
        let mut table = made.table.clone();
        table[BLOCK + 8 + 28 * j + at..][..4].copy_from_slice(&place.to_be_bytes());
        assert_eq!(check(&table), Answer::new(0, 0));
        let fault = sound(&table).unwrap_err();
        let start = 8 + 28 * j + at;
        assert_eq!((fault.rule, fault.block, fault.bytes), (7, 1, start..start + 4));
        let (mut out, mut map) = ([0xEE; 12], [0xEE; MAP]);
        assert_eq!(top_within(&table, Places { x1: 0, x2: 0 }, 1, 1, &mut out, &mut map), (Answer::new(3, 0), 0));
        assert_eq!(report(&table, Range { x1: 0, x2: 0, y: i32::MAX }, &mut out, &mut map), Answer::new(3, 0));
        assert!(out == [0xEE; 12] && map == [0xEE; MAP]);
        changes((0, 3)).into_iter().for_each(|c| is_refused(c, &table, table.len(), 3));
    }
}

/// What isn't in use isn't asked: places outside in blocks that no entry leads to, in the ranks and in the tracks.
#[test]
fn other_bytes_are_free() {
    let mut random = Random(0x0705);
    let spots = (0..300).map(|i| ((i, [i32::MIN, i32::MAX][i as usize % 2]), u32::MAX)).collect();
    let made = make(60, &spots, true, &mut random);
    assert_eq!(check(&made.table), Answer::new(0, 1));
    let used = nodes(&made.table).len() + 1;
    for place in OUTSIDE {
        let mut table = made.table.clone();
        for b in used..60 {
            let node = made.table[BLOCK..2 * BLOCK].to_vec();
            let bytes = &mut table[BLOCK * b..BLOCK * (b + 1)];
            bytes.copy_from_slice(&node);
            bytes[8 + 28 * node[7] as usize..][..4].copy_from_slice(&place.to_be_bytes());
        }
        assert_eq!((check(&table), count(&table)), (Answer::new(0, 1), Answer::new(0, made.live.len() as u32)));
        let mut work = vec![4; table.len()];
        assert_eq!(add(&mut table, spot((7, 7), 7), &mut work), Answer::new(0, 0));
        assert_eq!(rebuild(&mut table, &mut work), Answer::new(0, 0));
        assert_eq!(check(&table), Answer::new(0, 1));
    }
}

/// "Range ends may be any number": spots at both limits, and every pair of ends inside and outside.
#[test]
fn ranges_beyond_the_limits() {
    let mut random = Random(0x0706);
    let ends: Vec<i32> = INSIDE.into_iter().chain(OUTSIDE).chain([-300, 300]).collect();
    for waiting in [false, true] {
        let mut spots = some_spots(900, 1200, 40, &mut random);
        spots.extend(INSIDE.into_iter().flat_map(|place| RANKS.map(|rank| ((place, rank), 5))));
        let made = make(100, &spots, waiting, &mut random);
        assert_eq!(check(&made.table), Answer::new(0, 1));
        for x1 in &ends {
            let wanted: Vec<(i32, i32, i32)> = ends.iter().map(|x2| (*x1, *x2, [i32::MIN, 5][random.below(2)])).collect();
            let (counts, due) = reported_many(&made.live, &wanted);
            let ranges: Vec<Range> = wanted.iter().map(|(x1, x2, y)| Range { x1: *x1, x2: *x2, y: *y }).collect();
            let (mut each, mut out, mut map) = (vec![0; ranges.len()], vec![0; SPOT * due.len()], [0; MAP]);
            let a = report_many(&made.table, &ranges, &mut each, &mut out, &mut map);
            assert_eq!((a, &each), (Answer::new(0, due.len() as u32), &counts));
            assert!(spots_of(&out).eq(due.iter().map(|(k, t)| spot(*k, *t))));
            assert_eq!(marked(&map).collect::<BTreeSet<_>>(), read_by_many(&made.table, &wanted));
            for (k, allowance) in [(1, 1), (30, 6), (u32::MAX, u32::MAX)] {
                for x2 in &ends {
                    let due = spot_reference::top_within(&made.table, *x1, *x2, k, allowance);
                    let mut out = vec![0; SPOT * due.spots.len()];
                    let (a, ceiling) = top_within(&made.table, Places { x1: *x1, x2: *x2 }, k, allowance, &mut out, &mut map);
                    assert_eq!((a, ceiling), (Answer::new(0, due.spots.len() as u32), due.ceiling), "{x1} {x2} {k} {allowance}");
                    assert!(spots_of(&out).eq(due.spots.iter().map(|(k, t)| spot(*k, *t))));
                    let read: BTreeSet<usize> = due.read.into_iter().chain([0]).collect();
                    assert_eq!(marked(&map).collect::<BTreeSet<_>>(), read);
                }
            }
        }
    }
}

fn spots_of(out: &[u8]) -> Spots<'_> {
    spots(out, out.len() / SPOT).unwrap()
}

/// On any bytes every spot that is given has its place inside the limits, so that the difference of two fits 32 bits.
#[test]
fn places_given_lie_inside() {
    let mut random = Random(0x0707);
    let (mut refused, mut answered) = (0, 0);
    for round in 0..400 {
        let mut made = make(60, &some_spots(700, 2_000, 500, &mut random), round % 2 == 0, &mut random);
        let used = nodes(&made.table);
        for _ in 0..1 + random.below(3) {
            // the first byte of a place, or any byte
            let at = &used[random.below(used.len())];
            let (n, start) = (at.node.points.len() + at.node.inserts.len(), 8 + 28 * at.node.entries.len());
            let byte = if n > 0 && random.below(4) > 0 { start + SPOT * random.below(n) + random.below(2) } else { random.below(BLOCK) };
            made.table[BLOCK * at.block + byte] = random.draw() as u8;
        }
        for _ in 0..6 {
            let (x1, x2) = if random.below(2) == 0 { ALL } else { (random.below(2000) as i32 - 1000, random.draw() as i32) };
            let given = [
                lend(|out, map| report(&made.table, Range { x1, x2, y: i32::MIN }, out, map)),
                lend(|out, map| top(&made.table, Places { x1, x2 }, 30, out, map)),
                lend(|out, map| top_within(&made.table, Places { x1, x2 }, 30, 4, out, map).0),
            ];
            for (a, out) in given {
                if a.number != 0 {
                    assert_eq!(a, Answer::new(3, 0));
                    refused += 1;
                    continue;
                }
                answered += 1;
                let given: Vec<Spot> = spots(&out, a.detail as usize).unwrap().collect();
                assert!(given.iter().all(|s| in_limits(s.place) && holds(x1, x2, s.place)));
                assert!(given.windows(2).all(|w| w[0].place.checked_sub(w[1].place).is_some()));
            }
        }
    }
    assert!(refused > 500 && answered > 500, "{refused} refused, {answered} answered");
}
