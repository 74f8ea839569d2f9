//! Request 2026-05, ranges whose first place is greater than their last: Report and Top at the ends of the places, of the gap and of the answers' lengths.

use spot_reference::{holds, in_limits, make, nodes, read_by_report, reported, some_spots, top_order, Key, Made, Random};
use spot_table::*;
use std::collections::{BTreeMap, BTreeSet};

const ENDS: (i32, i32) = (i32::MIN, i32::MAX);
const LIMITS: (i32, i32) = (LOWEST_PLACE, HIGHEST_PLACE);

fn spot((k, track): (Key, u32)) -> Spot {
    Spot { place: k.0, rank: k.1, track }
}

fn ask(call: impl Fn(&[u8], &mut [u8], &mut [u8]) -> Answer, table: &[u8], room: usize) -> (Answer, Vec<u8>, Vec<u8>) {
    let (mut out, mut map) = (vec![0xEE; room], vec![0xDD; MAP]);
    (call(table, &mut out, &mut map), out, map)
}

/// The call gives these spots and marks these blocks, also with noise in all others; with too little room it is 5.
#[track_caller]
fn gives(
    name: &str,
    call: impl Fn(&[u8], &mut [u8], &mut [u8]) -> Answer,
    made: &Made,
    due: &[Spot],
    read: &BTreeSet<usize>,
    random: &mut Random,
) {
    let room = SPOT * due.len() + random.below(24);
    let (a, out, map) = ask(&call, &made.table, room);
    assert_eq!(a, Answer::new(0, due.len() as u32), "{name}");
    assert_eq!(spots(&out, due.len()).unwrap().collect::<Vec<_>>(), due, "{name}");
    assert!(out[SPOT * due.len()..].iter().all(|x| *x == 0xEE));
    assert_eq!(marked(&map).collect::<BTreeSet<_>>(), *read, "{name}");
    let mut second = made.table.clone();
    for (_, bytes) in second.chunks_mut(BLOCK).enumerate().filter(|(b, _)| !read.contains(b)) {
        bytes.fill_with(|| random.draw() as u8);
    }
    assert_eq!(ask(&call, &second, room), (a, out, map), "{name}");
    if !due.is_empty() {
        let (a, out, map) = ask(&call, &made.table, SPOT * due.len() - 1);
        assert_eq!(a, Answer::new(5, due.len() as u32), "{name}");
        assert!(out.iter().all(|x| *x == 0xEE) && map.iter().all(|x| *x == 0xDD));
    }
}

/// The spots of a Report that is as due, and the blocks that it reads.
#[track_caller]
fn report_gives(made: &Made, (x1, x2): (i32, i32), y: i32, random: &mut Random) -> (Vec<Spot>, BTreeSet<usize>) {
    let due: Vec<Spot> = reported(&made.live, x1, x2, y).into_iter().map(spot).collect();
    let read = read_by_report(&made.table, x1, x2, y);
    assert!(read.len() <= 1 + 36 * made.levels + 9 * (due.len() / 16));
    gives(&std::format!("report {x1} {x2} {y}"), |table, out, map| report(table, Range { x1, x2, y }, out, map), made, &due, &read, random);
    (due, read)
}

/// The same of a Top: its order is that of every range, its blocks are those of the Report from the last rank.
#[track_caller]
fn top_gives(made: &Made, (x1, x2): (i32, i32), k: u32, random: &mut Random) -> (Vec<Spot>, BTreeSet<usize>) {
    let placed = made.live.iter().filter(|(key, _)| holds(x1, x2, key.0));
    let mut due: Vec<Spot> = placed.map(|(key, t)| spot((*key, *t))).collect();
    due.sort_by_key(|s| top_order((s.place, s.rank)));
    due.truncate(k as usize);
    let y = due.last().filter(|_| due.len() == k as usize).map_or(i32::MIN, |s| s.rank);
    let read = if k == 0 { BTreeSet::from([0]) } else { read_by_report(&made.table, x1, x2, y) };
    gives(&std::format!("top {x1} {x2} {k}"), |table, out, map| top(table, Places { x1, x2 }, k, out, map), made, &due, &read, random);
    (due, read)
}

/// "Case M5 gives both spots, place 240 first"; Top's order stays.
#[test]
fn m5() {
    let mut work = vec![0; 9 * BLOCK];
    let mut table = Table::format(vec![0; 9 * BLOCK]).unwrap();
    let [door, far] = [Spot { place: 0, rank: 7, track: 1 }, Spot { place: 240, rank: 7, track: 2 }];
    table.add(door, &mut work).unwrap();
    table.add(far, &mut work).unwrap();
    let (mut out, mut map) = ([0; 24], ReadMap::new());
    assert_eq!(table.report(Range { x1: 240, x2: 0, y: 7 }, &mut out, &mut map).unwrap().collect::<Vec<_>>(), [far, door]);
    assert_eq!(map.blocks().collect::<Vec<_>>(), [0, 1]);
    assert_eq!(table.report(Range { x1: 240, x2: -1, y: 7 }, &mut out, &mut map).unwrap().collect::<Vec<_>>(), [far]);
    assert_eq!(table.report(Range { x1: 241, x2: 0, y: 7 }, &mut out, &mut map).unwrap().collect::<Vec<_>>(), [door]);
    assert_eq!(table.report(Range { x1: 240, x2: 0, y: 8 }, &mut out, &mut map).unwrap().len(), 0);
    assert_eq!(table.top(Places { x1: 240, x2: 0 }, 2, &mut out, &mut map).unwrap().collect::<Vec<_>>(), [door, far]);
    assert_eq!(table.top(Places { x1: 240, x2: 0 }, 1, &mut out, &mut map).unwrap().collect::<Vec<_>>(), [door]);
    assert_eq!(table.top(Places { x1: 240, x2: -1 }, 1, &mut out, &mut map).unwrap().collect::<Vec<_>>(), [far]);
}

/// Every pair of these numbers is a range: one place, a gap of one or of none, the two outermost places alone, all between them; with ends beyond the limits of places.
#[rustfmt::skip]
const NUMBERS: [i32; 17] = [
    ENDS.0, LIMITS.0 - 1, LIMITS.0, LIMITS.0 + 1, LIMITS.0 + 2, -700, -2, -1, 0, 1, 2, 700, LIMITS.1 - 2, LIMITS.1 - 1, LIMITS.1, LIMITS.1 + 1, ENDS.1,
];

#[test]
fn ends() {
    let mut random = Random(0x0501);
    for waiting in [false, true] {
        let mut spots = some_spots(1500, 1200, 40, &mut random);
        for place in NUMBERS.into_iter().filter(|n| in_limits(*n)) {
            spots.extend([ENDS.0, -1, 0, 1, ENDS.1].map(|rank| ((place, rank), random.draw() as u32)));
        }
        let made = make(160, &spots, waiting, &mut random);
        assert_eq!((check(&made.table).detail, made.levels), (1, 4));
        for range in NUMBERS.iter().flat_map(|x1| NUMBERS.map(|x2| (*x1, x2))) {
            for y in [ENDS.0, 1, 15, ENDS.1] {
                report_gives(&made, range, y, &mut random);
            }
            for k in [0, 1, 5, 40, u32::MAX] {
                top_gives(&made, range, k, &mut random);
            }
        }
    }
}

/// Without a gap every spot is given once, from x1 on: the spots in place order, turned.
#[test]
fn no_gap() {
    let mut random = Random(0x0502);
    for n in [1, 100, 1500] {
        let made = make(160, &some_spots(n, 200, 100, &mut random), true, &mut random);
        for x1 in [ENDS.0 + 1, LIMITS.0, LIMITS.0 + 1, -101, -100, -7, 0, 1, 99, 100, 101, LIMITS.1, LIMITS.1 + 1, ENDS.1] {
            let (given, _) = report_gives(&made, (x1, x1 - 1), ENDS.0, &mut random);
            let mut all: Vec<Spot> = made.live.iter().map(|(k, t)| spot((*k, *t))).collect();
            let before = all.iter().filter(|s| s.place < x1).count();
            all.rotate_left(before);
            assert_eq!(given, all);
            top_gives(&made, (x1, x1 - 1), 20, &mut random);
        }
    }
}

/// Three places of 500 ranks each, so that nodes lie wholly in a gap of one place, and ranges of nodes begin inside a place.
#[test]
fn gap_of_one_place() {
    let mut random = Random(0x0503);
    let spots: BTreeMap<Key, u32> = (0..1500).map(|i| ((i % 3 - 1, i / 3), i as u32)).collect();
    let made = make(160, &spots, false, &mut random);
    let in_gap = |from: Option<Key>, to: Option<Key>| from.is_some_and(|k| k >= (0, ENDS.0)) && to.is_some_and(|k| k <= (1, ENDS.0));
    let inside: Vec<usize> = nodes(&made.table).iter().filter(|n| in_gap(n.from, n.to)).map(|n| n.block).collect();
    assert!(inside.len() >= 10);
    for y in [ENDS.0, 250, 499] {
        let (given, read) = report_gives(&made, (1, -1), y, &mut random);
        let ranks = y.max(0)..500;
        let due: Vec<Key> = ranks.clone().map(|rank| (1, rank)).chain(ranks.map(|rank| (-1, rank))).collect();
        assert_eq!(given.iter().map(|s| (s.place, s.rank)).collect::<Vec<_>>(), due);
        assert!(inside.iter().all(|b| !read.contains(b)));
    }
    for k in [1, 2, 3, 700, 1000, 1001] {
        let (given, read) = top_gives(&made, (1, -1), k, &mut random);
        assert!(given.iter().zip([(499, -1), (499, 1), (498, -1)]).all(|(s, due)| (s.rank, s.place) == due));
        assert!(inside.iter().all(|b| !read.contains(b)));
    }
}

/// Nothing is given, and of the tree the two outermost paths are read: they have the places on both sides of the gap.
#[test]
fn everything_in_the_gap() {
    let mut random = Random(0x0504);
    let spots: BTreeMap<Key, u32> = (0..2000).map(|i| ((i % 500 - 250, i / 500), i as u32)).collect();
    let made = make(160, &spots, true, &mut random);
    for range in [(250, -251), (700, -700), LIMITS, (LIMITS.1 + 1, LIMITS.0 - 1), ENDS].map(|(a, b)| (a.max(b), a.min(b))) {
        let (given, read) = report_gives(&made, range, ENDS.0, &mut random);
        assert!(given.is_empty() && read.len() <= 2 * made.levels);
        assert_eq!(top_gives(&made, range, 3, &mut random), (given, read));
    }
}

/// So many spots before the door and so many behind it: the answers at which the library changes its way of writing them lie among these.
#[test]
fn lengths_on_both_sides() {
    let mut random = Random(0x0505);
    let spots: BTreeMap<Key, u32> = (0..1200).map(|i| ((i, 7 * i % 101), i as u32)).collect();
    for waiting in [false, true] {
        let made = make(80, &spots, waiting, &mut random);
        for n in [0, 1, 2, 64, 127, 128, 129, 511, 512, 513, 1199, 1200] {
            for before in [0, 1, n / 3, n / 2, n - n.min(1), n] {
                let range = (1200 - before, n - before - 1);
                if range.0 > range.1 {
                    report_gives(&made, range, ENDS.0, &mut random);
                    report_gives(&made, range, 50, &mut random);
                    top_gives(&made, range, u32::MAX, &mut random);
                    top_gives(&made, range, n as u32 / 2, &mut random);
                }
            }
        }
    }
}

/// On a damaged table, too, nothing but spots of the range is given, and a refusal writes nothing.
#[test]
fn damaged() {
    let mut random = Random(0x0506);
    let mut refused = 0;
    for round in 0..400 {
        let mut made = make(100, &some_spots(1200, 3000, 2000, &mut random), round % 2 == 0, &mut random);
        for _ in 0..1 + random.below(6) {
            let at = BLOCK * random.below(100) + random.below(300);
            made.table[at] = random.draw() as u8;
        }
        let [x1, x2] = [0, -1500].map(|least| random.below(1500) as i32 + least);
        let (a, out, map) = ask(|table, out, map| report(table, Range { x1, x2, y: 0 }, out, map), &made.table, SPOT * 1600);
        if a.number == 0 {
            let mut given = spots(&out, a.detail as usize).unwrap();
            assert!(given.all(|s| s.rank >= 0 && holds(x1, x2, s.place)) && map[0] & 1 == 1);
        } else {
            assert!(a == Answer::new(3, 0) && out.iter().all(|x| *x == 0xEE) && map.iter().all(|x| *x == 0xDD));
            refused += 1;
        }
    }
    assert!((20..380).contains(&refused), "{refused} refused");
}
