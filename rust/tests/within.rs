//! Request 2026-10, a Top that is allowed so many node blocks: against the rule read plainly, against the plain list and Top, on sound tables of many arrangements and
//! histories, on second tables and on damaged ones.

use spot_reference::histories::{next, Change, Live, KINDS};
use spot_reference::{holds, make, nodes, read_by_report, some_spots, top_order, Key, Made, Random};
use spot_table::*;
use std::collections::{BTreeMap, BTreeSet};

const ALL: (i32, i32) = (i32::MIN, i32::MAX);

#[derive(Debug, PartialEq)]
struct Left {
    answer: Answer,
    ceiling: i32,
    output: Vec<u8>,
    map: Vec<u8>,
}

/// The call with so many bytes of output and of the read map.
fn lend(table: &[u8], (x1, x2): (i32, i32), k: u32, allowance: u32, room: usize, map: usize) -> Left {
    let (mut output, mut map) = (vec![0xEE; room], vec![0xDD; map]);
    let (answer, ceiling) = top_within(table, Places { x1, x2 }, k, allowance, &mut output, &mut map);
    Left { answer, ceiling, output, map }
}

fn ask(table: &[u8], range: (i32, i32), k: u32, allowance: u32, room: usize) -> Left {
    lend(table, range, k, allowance, room, MAP)
}

/// The call is refused so: output and map are as lent, and the ceiling is 0.
#[track_caller]
fn is_refused(left: &Left, number: u32, detail: u32) {
    assert_eq!((left.answer, left.ceiling), (Answer::new(number, detail), 0));
    assert!(left.output.iter().all(|x| *x == 0xEE) && left.map.iter().all(|x| *x == 0xDD));
}

fn spot(k: Key, track: u32) -> Spot {
    Spot { place: k.0, rank: k.1, track }
}

/// The spots of the range in Top's order, by a plain sort.
fn in_order(live: &BTreeMap<Key, u32>, (x1, x2): (i32, i32)) -> Vec<Spot> {
    let placed = live.iter().filter(|(key, _)| holds(x1, x2, key.0));
    let mut all: Vec<Spot> = placed.map(|(key, t)| spot(*key, *t)).collect();
    all.sort_by_key(|s| top_order((s.place, s.rank)));
    all
}

/// The node blocks that Top reads: those of the Report from the rank of the last of its k spots.
fn read_by_top(table: &[u8], all: &[Spot], (x1, x2): (i32, i32), k: u32) -> usize {
    match k as usize {
        0 => 0,
        k => read_by_report(table, x1, x2, all.get(k - 1).map_or(i32::MIN, |s| s.rank)).len() - 1,
    }
}

/// The table with noise in every block that the map doesn't mark.
fn noisy(table: &[u8], map: &[u8], random: &mut Random) -> Vec<u8> {
    let (mut second, kept) = (table.to_vec(), marked(map).collect::<BTreeSet<_>>());
    for (_, bytes) in second.chunks_mut(BLOCK).enumerate().filter(|(b, _)| !kept.contains(b)) {
        bytes.fill_with(|| random.draw() as u8);
    }
    second
}

/// One call gives what the rule gives, and what it says holds on the plain list, whose spots of the range are `all`, in Top's order; also with noise in the blocks that
/// it doesn't mark. With too little room it is 5. The number of spots, and the ceiling.
#[track_caller]
fn gives(table: &[u8], all: &[Spot], range: (i32, i32), k: u32, allowance: u32, random: &mut Random) -> (usize, i32) {
    let name = std::format!("{range:?} {k} {allowance}");
    let due = spot_reference::top_within(table, range.0, range.1, k, allowance);
    let n = due.spots.len();
    let room = SPOT * n + random.below(24);
    let left = ask(table, range, k, allowance, room);
    assert_eq!((left.answer, left.ceiling), (Answer::new(0, n as u32), due.ceiling), "{name}");
    let given: Vec<Spot> = spots(&left.output, n).unwrap().collect();
    assert_eq!(given, due.spots.iter().map(|(k, t)| spot(*k, *t)).collect::<Vec<_>>(), "{name}");
    assert!(left.output[SPOT * n..].iter().all(|x| *x == 0xEE), "{name}");
    let read: BTreeSet<usize> = due.read.iter().copied().chain([0]).collect();
    assert_eq!(marked(&left.map).collect::<BTreeSet<_>>(), read, "{name}");
    assert!(read.len() as u64 <= 1 + allowance as u64 && n as u64 <= k as u64, "{name}");
    // the first of Top's, and no other is above the ceiling
    assert!(all.starts_with(&given) && all[n..].iter().all(|s| s.rank <= left.ceiling), "{name}");
    if k == 0 || allowance == 0 {
        assert!(n == 0 && left.ceiling == i32::MAX && read.len() == 1, "{name}");
    }
    assert_eq!(ask(&noisy(table, &left.map, random), range, k, allowance, room), left, "{name}");
    if n > 0 {
        is_refused(&ask(table, range, k, allowance, SPOT * n - 1), 5, n as u32);
        is_refused(&ask(table, range, k, allowance, 0), 5, n as u32);
    }
    (n, left.ceiling)
}

/// Every allowance up to a few more than Top reads: none gives fewer spots or a higher ceiling than a smaller one, and from what Top reads on, all is Top's. How many
/// were between nothing and all.
#[track_caller]
fn grows(table: &[u8], live: &BTreeMap<Key, u32>, range: (i32, i32), k: u32, random: &mut Random) -> usize {
    let all = in_order(live, range);
    let (enough, n) = (read_by_top(table, &all, range, k), all.len().min(k as usize));
    let (mut last, mut between) = ((0, i32::MAX), 0);
    for allowance in (0..enough as u32 + 3).chain([u32::MAX]) {
        let (given, ceiling) = gives(table, &all, range, k, allowance, random);
        assert!(last.0 <= given && ceiling <= last.1, "{range:?} {k} {allowance}: {given} {ceiling} after {last:?}");
        last = (given, ceiling);
        between += (0 < given && given < n) as usize;
        if enough <= allowance as usize {
            let (mut output, mut map) = (vec![0xEE; SPOT * n], vec![0xDD; MAP]);
            let answer = top(table, Places { x1: range.0, x2: range.1 }, k, &mut output, &mut map);
            let left = ask(table, range, k, allowance, SPOT * n);
            assert_eq!((left.answer, left.output, left.map), (answer, output, map), "{range:?} {k} {allowance}");
            assert!(given == n && (n == k as usize || ceiling == i32::MIN), "{range:?} {k} {allowance}");
        }
    }
    between
}

fn some_range(random: &mut Random) -> (i32, i32) {
    let x1 = random.below(6000) as i32 - 3000;
    match random.below(8) {
        0 => ALL,
        1 => (x1, x1),
        2 => (x1 + 5, x1),
        // past the door
        3 | 4 => (x1 + random.below(5000) as i32, x1),
        _ => (x1, x1 + random.below(5000) as i32),
    }
}

fn some_k(n: usize, random: &mut Random) -> u32 {
    match random.below(6) {
        0 => random.below(2) as u32,
        1 => u32::MAX,
        2 => random.below(n + 2) as u32,
        _ => 1 + random.below(70) as u32,
    }
}

fn some_table(round: usize, random: &mut Random) -> Made {
    let blocks = [9, 12, 32, 100][round % 4];
    // few ranks, so that many are equal
    let ranks = [1, 3, 40, 3000][random.below(4)];
    let spots = some_spots(random.below(16 * (blocks - 1)) + 1, 1 + random.below(5000), ranks, random);
    make(blocks, &spots, round % 3 != 0, random)
}

#[test]
fn any_arrangement() {
    let mut random = Random(0x1001);
    let mut between = 0;
    for round in 0..60 {
        let made = some_table(round, &mut random);
        for _ in 0..6 {
            let (range, k) = (some_range(&mut random), some_k(made.live.len(), &mut random));
            between += grows(&made.table, &made.live, range, k, &mut random);
        }
    }
    assert!(between > 200, "{between} answers between nothing and all");
}

/// The library's own tables: as they grow and shrink by a history, with changes waiting, and laid out anew.
#[test]
fn histories() {
    let mut random = Random(0x1002);
    for (kind, blocks) in KINDS.into_iter().flat_map(|kind| [(kind, 12), (kind, 60)]) {
        let capacity = 16 * (blocks - 1);
        let (mut table, mut work, mut live) = (vec![0; BLOCK * blocks], vec![0; BLOCK * blocks], Live::new());
        assert_eq!(format(&mut table), Answer::new(0, 0));
        for step in 0..3 * capacity {
            let c = next(kind, step, &live, capacity, capacity * 3 / 4, &mut random);
            let a = match c {
                Change::Add(k, t) => add(&mut table, spot(k, t), &mut work),
                Change::Withdraw(k) => withdraw(&mut table, k.0, k.1, &mut work),
            };
            assert_eq!(a.number, live.apply(c, table.len(), work.len()));
            if step % (capacity / 3) == 0 {
                // places of histories lie anywhere inside the limits
                let ends = [random.place(), random.place()];
                for range in [ALL, (ends[0], ends[1]), (ends[1], ends[0]), (ends[0], i32::MAX), (i32::MAX, ends[1])] {
                    grows(&table, &live.spots, range, some_k(capacity, &mut random), &mut random);
                }
            }
        }
        assert_eq!(rebuild(&mut table, &mut work), Answer::new(0, 0));
        for k in [1, 10, 200, u32::MAX] {
            grows(&table, &live.spots, ALL, k, &mut random);
        }
    }
}

/// All ranks are equal: nothing is certain while a child of that rank is unread, and the lower block is read first.
#[test]
fn equal_ranks() {
    let mut random = Random(0x1003);
    for waiting in [false, true] {
        let made = make(100, &(0..1200).map(|i| ((i, 7), i as u32)).collect(), waiting, &mut random);
        let used = nodes(&made.table).iter().filter(|n| !n.node.points.is_empty()).count() as u32;
        for (range, k) in [(ALL, 1), (ALL, u32::MAX), ((100, 700), 3), ((900, 200), 1000)] {
            grows(&made.table, &made.live, range, k, &mut random);
        }
        for allowance in 1..used {
            let left = ask(&made.table, ALL, 5, allowance, 0);
            assert_eq!((left.answer, left.ceiling), (Answer::new(0, 0), 7));
        }
        assert_eq!(ask(&made.table, ALL, 5, used, 60).ceiling, 7);
        assert_eq!(ask(&made.table, ALL, u32::MAX, used, 1200 * SPOT).ceiling, i32::MIN);
    }
}

/// The least and the highest rank: the ceiling is the least one also where a spot of it is left.
#[test]
fn ends_of_the_ranks() {
    let mut random = Random(0x1004);
    let ranks = [i32::MIN, i32::MIN + 1, -1, 0, i32::MAX - 1, i32::MAX];
    for round in 0..12 {
        let rank = |i: i32| if round < 6 { ranks[round] } else { ranks[(i % 11) as usize % 6] };
        let spots: BTreeMap<Key, u32> = (0..700).map(|i| ((i - 350, rank(i)), i as u32)).collect();
        let made = make(60, &spots, round % 2 == 0, &mut random);
        for range in [ALL, (-100, 200), (200, -100), (i32::MAX, i32::MIN)] {
            for k in [1, 5, 300, 699, 700, u32::MAX] {
                grows(&made.table, &made.live, range, k, &mut random);
            }
        }
    }
}

#[test]
fn large() {
    let mut random = Random(0x1005);
    let made = make(1000, &some_spots(16 * 999, 100_000, 1000, &mut random), true, &mut random);
    // at these numbers of spots and of blocks the library changes its way
    let wide = [1, 511, 512, 513, 514, 5000].map(|k| (ALL, k));
    for (range, k) in wide.into_iter().chain([((-20_000, 20_000), 1000), ((20_000, -20_000), 1000)]) {
        let all = in_order(&made.live, range);
        let enough = read_by_top(&made.table, &all, range, k) as u32;
        let mut last = (0, i32::MAX);
        for allowance in [0, 1, 2, 8, 60, 127, 128, 129, 400, enough - 1, enough, u32::MAX].into_iter().collect::<BTreeSet<_>>() {
            let (given, ceiling) = gives(&made.table, &all, range, k, allowance, &mut random);
            assert!(last.0 <= given && ceiling <= last.1);
            last = (given, ceiling);
        }
    }
}

/// Without spots: the root is read, and nothing is left.
#[test]
fn empty() {
    let mut table = vec![0; 9 * BLOCK];
    assert_eq!(format(&mut table), Answer::new(0, 0));
    for (k, allowance, ceiling, read) in
        [(1, 1, i32::MIN, vec![0, 1]), (9, 9, i32::MIN, vec![0, 1]), (0, 1, i32::MAX, vec![0]), (1, 0, i32::MAX, vec![0])]
    {
        let left = ask(&table, ALL, k, allowance, 12);
        assert_eq!((left.answer, left.ceiling, marked(&left.map).collect::<Vec<_>>()), (Answer::new(0, 0), ceiling, read));
        assert_eq!(left.output, [0xEE; 12]);
    }
}

#[test]
fn refusals_in_their_order() {
    let mut random = Random(0x1006);
    let made = make(12, &some_spots(150, 500, 500, &mut random), true, &mut random);
    let broken = vec![7u8; 12 * BLOCK];
    for table in [&made.table, &broken] {
        for (k, allowance) in [(0, 0), (0, 5), (5, 0), (1, 1), (5, 5), (u32::MAX, u32::MAX)] {
            for blocks in [&table[1..], &table[..8 * BLOCK], &[]] {
                is_refused(&lend(blocks, ALL, k, allowance, 0, MAP), 1, 0);
                is_refused(&lend(blocks, ALL, k, allowance, 12, 3), 1, 0);
            }
            for map in [0, MAP - 1, MAP + 1] {
                is_refused(&lend(table, ALL, k, allowance, 12, map), 2, 0);
            }
        }
    }
    for (k, allowance) in [(0, 0), (0, 5), (5, 0), (5, 5)] {
        is_refused(&ask(&broken, ALL, k, allowance, 0), 3, 0);
    }
    // with no node to be read, no node can be in the way
    let mut noise = broken;
    noise[..BLOCK].copy_from_slice(&made.table[..BLOCK]);
    for (k, allowance) in [(0, 0), (0, 5), (5, 0)] {
        assert_eq!(ask(&noise, ALL, k, allowance, 0), ask(&made.table, ALL, k, allowance, 0));
    }
    is_refused(&ask(&noise, ALL, 1, 1, 12), 3, 0);
}

/// A broken block is 3 from the allowance on with which it is read, and 3 comes before 5.
#[test]
fn one_broken_block() {
    let mut random = Random(0x1007);
    let made = make(100, &(0..1200).map(|i| ((i, i * 7 % 1000), i as u32)).collect(), false, &mut random);
    let read = spot_reference::top_within(&made.table, ALL.0, ALL.1, 300, u32::MAX).read;
    assert!(read.len() > 5);
    for (at, b) in read.iter().enumerate() {
        let mut table = made.table.clone();
        table[BLOCK * b + 2] = 9;
        for allowance in 1..=read.len() as u32 {
            let left = ask(&table, ALL, 300, allowance, 300 * SPOT);
            if at < allowance as usize {
                is_refused(&left, 3, 0);
                is_refused(&ask(&table, ALL, 300, allowance, 0), 3, 0);
            } else {
                assert_eq!(left, ask(&made.table, ALL, 300, allowance, 300 * SPOT));
            }
        }
    }
}

/// Two entries, of two nodes, that show one rank and one block: 3 once one of them would be read, and not before.
#[test]
fn two_entries_for_one_block() {
    let mut random = Random(0x1008);
    let made = make(160, &(0..2000).map(|i| ((i, i * 7 % 40), i as u32)).collect(), false, &mut random);
    // the entries that show a lower rank than each spot beside them, so that they are known before one of that rank is read
    let mut entries = vec![];
    for parent in nodes(&made.table).iter().filter(|n| n.node.level == 1) {
        for (j, e) in parent.node.entries.iter().enumerate().filter(|(_, e)| e.size > 0) {
            let rank = e.top.unwrap().1;
            if parent.node.points.keys().all(|k| k.1 > rank) {
                entries.push((parent.block, j, e.block, rank));
            }
        }
    }
    let mut pairs = 0;
    let both = entries.iter().flat_map(|a| entries.iter().map(move |b| (a, b)));
    for (one, other) in both.filter(|(a, b)| a.0 != b.0 && a.3 == b.3).take(40) {
        let (mut table, at) = (made.table.clone(), BLOCK * other.0 + 8 + 28 * other.1);
        table[at..at + 2].copy_from_slice(&(one.2 as u16).to_be_bytes());
        let mut refused = 0;
        for allowance in 0..100 {
            let left = ask(&table, ALL, u32::MAX, allowance, 2000 * SPOT);
            if left.answer.number == 0 {
                assert!(refused == 0 && left.ceiling >= one.3 && marked(&left.map).all(|b| b != one.2), "{one:?} {other:?} {allowance}");
            } else {
                is_refused(&left, 3, 0);
                refused += 1;
            }
        }
        assert!(0 < refused && refused < 99);
        pairs += 1;
    }
    assert_eq!(pairs, 40);
}

/// On damaged tables nothing but spots of the range is given, a refusal writes nothing but the ceiling, the unmarked blocks don't matter, and without a limit it is Top.
#[test]
fn damaged() {
    let mut random = Random(0x1009);
    let (mut refused, mut answered) = (0, 0);
    for round in 0..600 {
        let mut made = some_table(round, &mut random);
        let blocks = made.table.len() / BLOCK;
        for _ in 0..1 + random.below(4) {
            // mostly in the front of a block, where the numbers stand
            let at = BLOCK * random.below(blocks) + if random.below(3) == 0 { random.below(BLOCK) } else { random.below(300) };
            made.table[at] = random.draw() as u8;
        }
        for _ in 0..8 {
            let (range, k) = (some_range(&mut random), some_k(200, &mut random));
            let allowance = if random.below(4) == 0 { u32::MAX } else { random.below(blocks) as u32 };
            let left = ask(&made.table, range, k, allowance, 100 * SPOT);
            let n = left.answer.detail as usize;
            match left.answer.number {
                0 => {
                    assert!(n as u64 <= k as u64 && left.map[0] & 1 == 1 && marked(&left.map).count() as u64 <= 1 + allowance as u64);
                    assert!(spots(&left.output, n).unwrap().all(|s| holds(range.0, range.1, s.place)));
                    assert!(left.output[SPOT * n..].iter().all(|x| *x == 0xEE));
                    assert_eq!(ask(&noisy(&made.table, &left.map, &mut random), range, k, allowance, 100 * SPOT), left);
                    answered += 1;
                }
                number => {
                    assert!(number == 3 && n == 0 || number == 5 && n > 100);
                    is_refused(&left, number, n as u32);
                    refused += 1;
                }
            }
            let (mut output, mut map) = (vec![0xEE; 100 * SPOT], vec![0xDD; MAP]);
            let answer = top(&made.table, Places { x1: range.0, x2: range.1 }, k, &mut output, &mut map);
            let left = ask(&made.table, range, k, u32::MAX, 100 * SPOT);
            assert_eq!((left.answer, left.map), (answer, map), "round {round}: {range:?} {k}");
        }
    }
    assert!(refused > 200 && answered > 200, "{refused} refused, {answered} answered");
    for _ in 0..200 {
        let noise: Vec<u8> = (0..12 * BLOCK).map(|_| random.draw() as u8).collect();
        is_refused(&ask(&noise, ALL, 3, 3, 36), 3, 0);
    }
}
