//! Request 2026-03, pressed tours: their bytes, what a Report of them gives and marks, and which bytes and lists are turned down.

use spot_reference::{holds, make, pressed, read_of_bytes, read_of_tour, reported, Key, Random};
use spot_table::*;
use std::collections::{BTreeMap, BTreeSet};

const ENDS: (i32, i32) = (i32::MIN, i32::MAX);
const LIMITS: (i32, i32) = (LOWEST_PLACE, HIGHEST_PLACE);
/// More than a tour can have, and more than 15 blocks of any bytes hold.
const ROOM: usize = SPOT * 1000;

type List = BTreeMap<Key, u32>;

fn spot((k, track): (Key, u32)) -> Spot {
    Spot { place: k.0, rank: k.1, track }
}

fn bytes(list: &List) -> Vec<u8> {
    list.iter().flat_map(|(k, t)| spot((*k, *t)).to_bytes()).collect()
}

/// The tour of the list: as the plain reading of the paper makes it, and what was lent behind it is left.
#[track_caller]
fn press_gives(list: &List, random: &mut Random) -> Vec<u8> {
    let mut lent = vec![0xEE; TOUR + random.below(3) * 999];
    assert_eq!(press(&bytes(list), &mut lent), Answer::new(0, 0));
    let (tour, behind) = lent.split_at(tour_len(&lent).unwrap());
    assert!(tour == pressed(list) && behind.iter().all(|x| *x == 0xEE), "{} spots", list.len());
    tour.to_vec()
}

fn ask(tour: &[u8], (x1, x2): (i32, i32), y: i32, room: usize) -> (Answer, Vec<u8>, Vec<u8>) {
    let (mut out, mut map) = (vec![0xEE; room], vec![0xDD; MAP]);
    (tour_report(tour, Range { x1, x2, y }, &mut out, &mut map), out, map)
}

/// Every byte of the blocks that aren't read is another one.
fn second(tour: &[u8], read: &BTreeSet<usize>, random: &mut Random) -> Vec<u8> {
    let mut out = tour.to_vec();
    for (_, block) in out.chunks_mut(BLOCK).enumerate().filter(|(b, _)| !read.contains(b)) {
        block.fill_with(|| random.draw() as u8);
    }
    out
}

/// The Report gives the spots of the list and marks the blocks that the paper names, within its bound, also with noise in all others; with too little room it is 5.
#[track_caller]
fn report_gives(list: &List, tour: &[u8], range: (i32, i32), y: i32, random: &mut Random) -> (Vec<Spot>, BTreeSet<usize>) {
    let name = std::format!("{} spots, {range:?} {y}", list.len());
    let due: Vec<Spot> = reported(list, range.0, range.1, y).into_iter().map(spot).collect();
    let read = read_of_tour(list, range.0, range.1, y);
    let most = if range.0 <= range.1 { 4 } else { 5 } + 2 * (due.len() / 64);
    assert!(read.len() <= most, "{name}: {read:?}");
    let room = SPOT * due.len() + random.below(24);
    let (a, out, map) = ask(tour, range, y, room);
    assert_eq!(a, Answer::new(0, due.len() as u32), "{name}");
    assert_eq!(spots(&out, due.len()).unwrap().collect::<Vec<_>>(), due, "{name}");
    assert!(out[SPOT * due.len()..].iter().all(|x| *x == 0xEE));
    assert_eq!(marked(&map).collect::<BTreeSet<_>>(), read, "{name}");
    assert_eq!(ask(&second(tour, &read, random), range, y, room), (a, out, map), "{name}");
    if !due.is_empty() {
        let (a, out, map) = ask(tour, range, y, SPOT * due.len() - 1);
        assert_eq!(a, Answer::new(5, due.len() as u32), "{name}");
        assert!(out.iter().all(|x| *x == 0xEE) && map.iter().all(|x| *x == 0xDD));
    }
    (due, read)
}

/// n spots among so many places and ranks; few of either make ties.
fn anywhere(n: usize, places: usize, ranks: usize, random: &mut Random) -> List {
    assert!(n <= places * ranks);
    let mut out = List::new();
    while out.len() < n {
        let k = (random.below(places) as i32 - places as i32 / 2, random.below(ranks) as i32 - ranks as i32 / 2);
        out.insert(k, random.draw() as u32);
    }
    out
}

/// (10i + 5, 37i mod 512 + 1, track i) for i < n.
fn z(n: i32) -> List {
    (0..n).map(|i| ((10 * i + 5, 37 * i % 512 + 1), i as u32)).collect()
}

fn fnv(bytes: &[u8]) -> u64 {
    bytes.iter().fold(0xcbf2_9ce4_8422_2325, |h, x| (h ^ u64::from(*x)).wrapping_mul(0x100_0000_01b3))
}

#[test]
fn vectors() {
    let mut random = Random(0x0301);
    for (n, blocks, sum) in [
        (0, 1, 0xaba3_b83f_341e_d5ec),
        (1, 2, 0x2242_89e2_1d96_c84b),
        (64, 2, 0xc781_1342_4830_4058),
        (65, 4, 0x87f0_6739_c3d3_95c1),
        (129, 6, 0x1fd7_881e_0a51_10e8),
        (512, 16, 0x36f4_5a4d_00d0_36c9),
    ] {
        let tour = press_gives(&z(n), &mut random);
        assert_eq!((tour.len(), fnv(&tour)), (blocks * BLOCK, sum), "{n} spots");
    }
    let (given, read) = report_gives(&z(129), &press_gives(&z(129), &mut random), (0, 100), 257, &mut random);
    assert_eq!((given.len(), read), (3, BTreeSet::from([0, 5])));
    let (given, read) = report_gives(&z(512), &press_gives(&z(512), &mut random), (1000, 3000), 256, &mut random);
    assert_eq!((given.len(), read), (100, BTreeSet::from([0, 5, 9, 11])));
}

/// Every number of spots, with ranks that rise, fall or tie along the route, and with many spots of a place.
#[test]
fn bytes_of_every_length() {
    let mut random = Random(0x0302);
    for n in 0..=512 {
        let kinds: [fn(i32) -> Key; 5] = [|i| (i, i), |i| (i, -i), |i| (i, 7), |i| (7, i), |i| (i / 3, i % 3)];
        for kind in kinds {
            press_gives(&(0..n).map(|i| (kind(i), i as u32)).collect(), &mut random);
        }
        press_gives(&anywhere(n as usize, 300, 4, &mut random), &mut random);
        press_gives(&anywhere(n as usize, 100_000, 100_000, &mut random), &mut random);
    }
}

#[test]
fn reports_of_random_tours() {
    let mut random = Random(0x0303);
    let mut full = 0;
    for round in 0..400 {
        let n = [random.below(513), 64 * random.below(9), 512][round % 3];
        let (places, ranks) = [(2000, 2000), (600, 1), (1, 600), (30, 30), (1000, 3), (40, 500)][round % 6];
        let list = anywhere(n, places, ranks, &mut random);
        let tour = press_gives(&list, &mut random);
        for i in 0..24 {
            let [a, b] = [0; 2].map(|_| random.below(places + 4) as i32 - places as i32 / 2 - 2);
            let range = [(a, b), (a.min(b), a.max(b)), (a, a), ENDS][i % 4];
            let y = [random.below(ranks + 2) as i32 - ranks as i32 / 2 - 1, ENDS.0][i % 5 / 4];
            let (given, read) = report_gives(&list, &tour, range, y, &mut random);
            full += (read.len() == if range.0 <= range.1 { 4 } else { 5 } + 2 * (given.len() / 64)) as usize;
        }
    }
    assert!(full > 5, "the bound is reached {full} times");
}

/// Places at the limits, ranks at the ends of their numbers, ranges with ends at and beyond both; identity (0, 0), which the catalogue writes as it writes none, passed first or last.
#[test]
fn extremes() {
    let mut random = Random(0x0304);
    let numbers = [ENDS.0, ENDS.0 + 1, LIMITS.0 - 1, LIMITS.0, LIMITS.0 + 1, -1, 0, 1, LIMITS.1 - 1, LIMITS.1, LIMITS.1 + 1, ENDS.1];
    let ranks = [ENDS.0, ENDS.0 + 1, -1, 0, 1, ENDS.1 - 1, ENDS.1];
    for (n, sign) in [(40, 1), (200, 1), (440, 1), (440, -1)] {
        let mut list: List = anywhere(n, 2000, 2000, &mut random).into_iter().map(|((p, r), t)| ((p, sign * r.abs() - sign), t)).collect();
        for place in [LIMITS.0, LIMITS.0 + 1, 0, LIMITS.1 - 1, LIMITS.1] {
            list.extend(ranks.map(|rank| ((place, rank), random.draw() as u32)));
        }
        list.insert((0, 0), 0);
        let tour = press_gives(&list, &mut random);
        for range in numbers.iter().flat_map(|x1| numbers.map(|x2| (*x1, x2))) {
            for y in ranks {
                report_gives(&list, &tour, range, y, &mut random);
            }
        }
    }
}

/// "Report on it agrees with Report on the same set": a table with the same spots gives the same bytes.
#[test]
fn tables_of_the_same_spots() {
    let mut random = Random(0x0305);
    for round in 0..60 {
        let made = make(60, &anywhere(random.below(513), 600, 40, &mut random), round % 2 == 0, &mut random);
        let tour = press_gives(&made.live, &mut random);
        for _ in 0..40 {
            let [x1, x2] = [0; 2].map(|_| random.below(700) as i32 - 350);
            let y = random.below(44) as i32 - 22;
            let (mut out, mut map) = (vec![0xEE; ROOM], vec![0; MAP]);
            let a = report(&made.table, Range { x1, x2, y }, &mut out, &mut map);
            let (b, given, _) = ask(&tour, (x1, x2), y, ROOM);
            assert!(a.number == 0 && a == b && out == given, "{x1} {x2} {y}");
        }
    }
}

/// 2, then 7, then 9; nothing that was lent has changed.
#[test]
fn lists_that_are_turned_down() {
    let good = bytes(&z(130));
    let [low, high] = [LIMITS.0 - 1, LIMITS.1 + 1].map(|place| Spot { place, rank: 5, track: 1 }.to_bytes());
    let many = bytes(&(0..513).map(|i| ((i, i), 7)).collect());
    let (mut twice, mut swapped, mut sinking) = (good.clone(), good.clone(), good.clone());
    twice.copy_within(12..20, 24);
    swapped.copy_within(12..24, 0);
    sinking[12 * 129..12 * 129 + 4].copy_from_slice(&(-1_i32).to_be_bytes());
    let lists: [(&str, Vec<u8>, u32); 12] = [
        ("none", vec![], 0),
        ("as many as can be", many[..12 * 512].to_vec(), 0),
        ("one more", many.clone(), 7),
        ("one more, which is cut short", many[..12 * 513 - 1].to_vec(), 7),
        ("the last cut short", good[..12 * 130 - 1].to_vec(), 7),
        ("a byte", vec![0], 7),
        ("one identity twice", twice, 7),
        ("the first spot twice", swapped, 7),
        ("the last one before all", sinking, 7),
        ("below the limits", [&low[..], &good].concat(), 9),
        ("above the limits", [&good[..], &high].concat(), 9),
        ("above the limits, and not rising", [&high[..], &good].concat(), 7),
    ];
    for (name, list, number) in lists {
        for length in [0, BLOCK, TOUR - 1, TOUR, TOUR + 1] {
            let (given, mut lent) = (list.clone(), vec![0xEE; length]);
            let due = if length < TOUR { 2 } else { number };
            assert_eq!(press(&list, &mut lent), Answer::new(due, 0), "{name}, {length} bytes");
            assert!(list == given && (due == 0 || lent.iter().all(|x| *x == 0xEE)), "{name}, {length} bytes");
        }
    }
    // whatever the tracks are, and exactly at the limits
    for place in [LIMITS.0, LIMITS.1] {
        press_gives(&List::from([((place, ENDS.0), 0), ((place, ENDS.1), u32::MAX)]), &mut Random(1));
    }
}

/// 1, then 2, then 3, then 5; nothing that was lent has changed.
#[test]
fn tours_that_are_turned_down() {
    let mut random = Random(0x0306);
    let mut lent = press_gives(&z(512), &mut random);
    let broken = [&[9], &lent[1..]].concat();
    lent.extend([0; BLOCK]);
    for (tour, number) in
        [(&[][..], 1), (&lent[..1], 1), (&lent[..TOUR - 1], 1), (&lent, 1), (&lent[..BLOCK], 3), (&broken, 3), (&lent[..TOUR], 5)]
    {
        for map_len in [0, MAP - 1, MAP, MAP + 1] {
            let (before, mut out, mut map) = (tour.to_vec(), [0xEE; SPOT], vec![0xDD; map_len]);
            let due = if number > 1 && map_len != MAP { 2 } else { number };
            let a = tour_report(tour, Range::ALL, &mut out, &mut map);
            assert_eq!(a, Answer::new(due, if due == 5 { 512 } else { 0 }));
            assert!(tour == before && out == [0xEE; SPOT] && map.iter().all(|x| *x == 0xDD));
        }
    }
}

/// On any bytes: 3 exactly where a block read breaks its layout; else spots of the range, no identity twice, all in the blocks marked, which alone decide.
fn answers_any_bytes(tour: &[u8], range: (i32, i32), y: i32, random: &mut Random) -> bool {
    let (a, out, map) = ask(tour, range, y, ROOM);
    let Some(read) = read_of_bytes(tour, range.0, range.1, y) else {
        assert!(a == Answer::new(3, 0) && out.iter().all(|x| *x == 0xEE) && map.iter().all(|x| *x == 0xDD));
        return false;
    };
    assert_eq!((a.number, marked(&map).collect::<BTreeSet<_>>()), (0, read.clone()));
    let there: BTreeSet<&[u8]> =
        read.iter().filter(|b| **b > 0).flat_map(|b| tour[BLOCK * b..BLOCK * b + SPOT * 64].chunks(SPOT)).collect();
    let mut given = spots(&out, a.detail as usize).unwrap();
    assert!(given.bytes().chunks(SPOT).all(|s| there.contains(s)));
    assert_eq!(given.bytes().chunks(SPOT).map(|s| &s[..8]).collect::<BTreeSet<_>>().len(), a.detail as usize);
    assert!(given.all(|s| s.rank >= y && holds(range.0, range.1, s.place) && (LIMITS.0..=LIMITS.1).contains(&s.place)));
    assert_eq!(ask(&second(tour, &read, random), range, y, ROOM), (a, out, map));
    true
}

#[test]
fn damaged() {
    let mut random = Random(0x0307);
    let mut answered = 0;
    for round in 0..6000 {
        let list = anywhere([0, 1, 64, 65, 130, 300, 512][round % 7], 900, 700, &mut random);
        let mut tour = press_gives(&list, &mut random);
        for _ in 0..1 + random.below(3) {
            let at = match random.below(3) {
                0 => random.below(tour.len()),
                // the catalogue's entries, or the used part of a block
                1 => random.below(8 + 36 * (tour.len() / BLOCK - 1)),
                _ => BLOCK * random.below(tour.len() / BLOCK) + random.below(SPOT * 64),
            };
            match random.below(3) {
                0 => tour[at] ^= 1 << random.below(8),
                1 => tour[at] = random.draw() as u8,
                _ => {
                    let from = random.below(tour.len() - 8);
                    tour.copy_within(from..from + 8, at.min(from));
                }
            }
        }
        let [x1, x2] = [0; 2].map(|_| random.below(1000) as i32 - 500);
        answered += answers_any_bytes(&tour, (x1, x2), random.below(800) as i32 - 400, &mut random) as usize;
    }
    assert!((500..5500).contains(&answered), "{answered} answered");
}

/// A word of the catalogue, the version, a limit of places: every single rule of the layout is asked for.
#[test]
fn every_word_of_the_catalogue() {
    let mut random = Random(0x0308);
    let tour = press_gives(&anywhere(200, 900, 700, &mut random), &mut random);
    for at in (0..BLOCK).step_by(4) {
        let old = u32::from_be_bytes(tour[at..at + 4].try_into().unwrap());
        for new in
            [0, 1, old ^ 1, old.wrapping_add(256), LIMITS.0 as u32, (LIMITS.0 - 1) as u32, LIMITS.1 as u32, (LIMITS.1 + 1) as u32, u32::MAX]
        {
            let mut other = tour.clone();
            other[at..at + 4].copy_from_slice(&new.to_be_bytes());
            for (range, y) in [(ENDS, ENDS.0), ((-100, 100), 0), ((100, -100), 200)] {
                answers_any_bytes(&other, range, y, &mut random);
            }
        }
    }
    // whole blocks of anything, and the tour cut or with blocks behind it
    for blocks in 1..=16 {
        let mut noise = vec![0; BLOCK * blocks];
        noise.fill_with(|| random.draw() as u8);
        assert!(!answers_any_bytes(&noise, ENDS, ENDS.0, &mut random));
        noise.fill(0);
        assert!(!answers_any_bytes(&noise, ENDS, ENDS.0, &mut random));
        let n = tour.len().min(BLOCK * blocks);
        noise[..n].copy_from_slice(&tour[..n]);
        assert_eq!(answers_any_bytes(&noise, ENDS, ENDS.0, &mut random), noise.len() == tour.len());
    }
}

/// A catalogue that names the same spots over and over, made before and ended after the rank asked for: it shows so by itself.
#[test]
fn the_same_spots_over_and_over() {
    let mut random = Random(0x0309);
    let list: List = (0..64).map(|i| ((i, i), 7)).collect();
    let own = press_gives(&list, &mut random);
    let mut tour = press_gives(&z(512), &mut random);
    for b in 1..16 {
        let [made, ended] = [if b <= 8 { 0 } else { -5 }, if b == 15 { 0 } else { 100 }].map(i32::to_be_bytes);
        let words = [&own[12..28], &[0; 4], &made, &[0; 4], &ended].concat();
        tour[8 + 36 * (b - 1) + 4..8 + 36 * b].copy_from_slice(&words);
        tour[BLOCK * b..BLOCK * (b + 1)].copy_from_slice(&own[BLOCK..]);
    }
    assert!(!answers_any_bytes(&tour, ENDS, 0, &mut random));
}

/// A block copied over another, with its entry: whatever is asked, and whichever they are.
#[test]
fn a_block_that_stands_twice() {
    let mut random = Random(0x030A);
    for n in [128, 200, 512] {
        let tour = press_gives(&z(n), &mut random);
        let blocks = tour.len() / BLOCK;
        for (from, to) in (1..blocks).flat_map(|from| (1..blocks).filter(move |to| *to != from).map(move |to| (from, to))) {
            let mut other = tour.clone();
            other.copy_within(8 + 36 * (from - 1)..8 + 36 * from, 8 + 36 * (to - 1));
            other.copy_within(BLOCK * from..BLOCK * (from + 1), BLOCK * to);
            for (range, y) in [(ENDS, ENDS.0), (ENDS, 100), ((1, 1), 400)] {
                assert_eq!(ask(&other, range, y, ROOM).0, Answer::new(3, 0), "{n} spots, {from} over {to}");
            }
        }
    }
}

/// What a catalogue shows of a block that isn't read, and a block of its maker where it is.
#[test]
fn spans_and_makers() {
    let mut random = Random(0x030B);
    // block 2 has one spot; what is asked for reads block 1
    let tour = press_gives(&z(65), &mut random);
    let (range, y) = ((0, 100), ENDS.0);
    assert!(answers_any_bytes(&tour, range, y, &mut random));
    for at in [8 + 36 + 4, 8 + 36 + 12] {
        let mut other = tour.clone();
        other[at + 7] ^= 1;
        assert!(!answers_any_bytes(&other, range, y, &mut random));
    }
    // block 3 is fused: a spot of it with the lowest rank of all
    let mut other = tour.clone();
    other[3 * BLOCK + SPOT + 4..][..4].copy_from_slice(&ENDS.0.to_be_bytes());
    assert!(answers_any_bytes(&other, range, y, &mut random));
    assert!(answers_any_bytes(&tour, range, 300, &mut random));
    assert!(!answers_any_bytes(&other, range, 300, &mut random));
}

/// The types over owned and borrowed bytes.
#[test]
fn tours_in_rust() {
    let all: Vec<Spot> = z(300).into_iter().map(spot).collect();
    let mut lent = [0xEE; TOUR + 5];
    let tour = Tour::press(&all, &mut lent).unwrap();
    assert_eq!(tour.bytes(), pressed(&z(300)));
    let (mut out, mut map) = ([0; SPOT * TOUR_SPOTS], ReadMap::new());
    assert_eq!(tour.report(Range::ALL, &mut out, &mut map).unwrap().collect::<Vec<_>>(), all);
    let owned = Tour::new(tour.bytes().to_vec());
    let given: Vec<i32> = owned.report(Range { x1: 2900, x2: 100, y: 256 }, &mut out, &mut map).unwrap().map(|s| s.place).collect();
    assert_eq!(given, reported(&z(300), 2900, 100, 256).iter().map(|s| s.0 .0).collect::<Vec<_>>());
    assert_eq!(owned.report(Range::new(0..=9000, 1), &mut out[..SPOT], &mut map).unwrap_err(), Refusal::Output { spots: 300 });
    assert_eq!(owned.into_bytes().len(), 10 * BLOCK);
    assert!(lent[10 * BLOCK..].iter().all(|x| *x == 0xEE));
    let longer: Vec<Spot> = (0..2000).map(|place| Spot { place, rank: 1, track: 1 }).collect();
    assert!(Tour::press(&longer[..512], &mut lent).is_ok());
    for n in [513, 2000] {
        assert_eq!(Tour::press(&longer[..n], &mut lent).unwrap_err(), Refusal::NotPressable);
        assert_eq!(Tour::press(&longer[..n], &mut lent[..TOUR - 1]).unwrap_err(), Refusal::LentLength);
    }
    assert_eq!(Tour::new(&lent).report(Range::ALL, &mut out, &mut map).unwrap_err(), Refusal::TableLength);
    assert_eq!(Tour::new([0; BLOCK]).report(Range::ALL, &mut out, &mut map).unwrap_err(), Refusal::Broken);
    assert_eq!(Tour::press(&[], &mut lent).unwrap().bytes(), pressed(&z(0)));
}
