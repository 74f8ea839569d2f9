//! Top against the plain list and against the blocks that a Report at the last rank reads, on sound tables with and without waiting changes, and on damaged ones.

use spot_reference::{holds, make, read_by_report, some_spots, top_order, Key, Node, Random};
use spot_table::*;
use std::collections::BTreeMap;

fn marks(map: &[u8]) -> Vec<usize> {
    marked(map).collect()
}

fn ask(table: &[u8], x1: i32, x2: i32, k: u32, room: usize) -> (Answer, Vec<u8>, Vec<u8>) {
    let (mut out, mut map) = (vec![0xEE; room], vec![0xDD; 512]);
    let a = top(table, Places { x1, x2 }, k, &mut out, &mut map);
    (a, out, map)
}

/// The first k of the range in the order of Top's answers, by a plain sort.
fn due(live: &BTreeMap<Key, u32>, x1: i32, x2: i32, k: usize) -> Vec<Spot> {
    let placed = live.iter().filter(|(key, _)| holds(x1, x2, key.0));
    let mut all: Vec<Spot> = placed.map(|(key, t)| Spot { place: key.0, rank: key.1, track: *t }).collect();
    all.sort_by_key(|s| top_order((s.place, s.rank)));
    all.truncate(k);
    all
}

fn places(random: &mut Random) -> (i32, i32) {
    let x1 = random.below(6000) as i32 - 3000;
    match random.below(8) {
        0 => (i32::MIN, i32::MAX),
        1 => (x1 + 5, x1),
        // past the door
        2 | 3 => (x1 + random.below(5000) as i32, x1),
        _ => (x1, x1 + random.below(5000) as i32),
    }
}

#[test]
fn lengths() {
    let mut table = vec![0u8; 2048 * 9];
    assert_eq!(format(&mut table), Answer::new(0, 0));
    for n in [0, 511, 513] {
        let (mut out, mut map) = (vec![8u8; 12], vec![9u8; n]);
        assert_eq!(top(&table, Places { x1: 0, x2: 1 }, 1, &mut out, &mut map), Answer::new(2, 0));
        assert!(map.iter().all(|x| *x == 9) && out.iter().all(|x| *x == 8));
    }
    let (a, out, map) = ask(&table[1..], 0, 1, 1, 12);
    assert!(a == Answer::new(1, 0) && out == [0xEE; 12] && map == [0xDD; 512]);
    let (a, _, map) = ask(&table, i32::MIN, i32::MAX, 3, 0);
    assert_eq!((a, marks(&map)), (Answer::new(0, 0), vec![0, 1]));
    let (a, _, map) = ask(&table, i32::MIN, i32::MAX, 0, 0);
    assert_eq!((a, marks(&map)), (Answer::new(0, 0), vec![0]));
}

#[test]
fn in_order() {
    let mut random = Random(0x1234567);
    for round in 0..60 {
        let blocks = [9, 12, 32, 100, 300, 1000][round % 6];
        let n = random.below(16 * (blocks - 1)) + 1;
        // few ranks, so that many are equal
        let ranks = [1, 3, 40, 3000][random.below(4)];
        let spots = some_spots(n, 5000 + n, ranks, &mut random);
        let made = make(blocks, &spots, round % 3 != 0, &mut random);
        assert_eq!(check(&made.table), Answer::new(0, 1), "round {round}");
        for _ in 0..40 {
            let (x1, x2) = places(&mut random);
            let k = match random.below(6) {
                0 => 0,
                1 => u32::MAX,
                2 => random.below(n + 2) as u32,
                _ => 1 + random.below(70) as u32,
            };
            let want = due(&made.live, x1, x2, k as usize);
            let room = 12 * want.len() + random.below(24);
            let (a, out, map) = ask(&made.table, x1, x2, k, room);
            assert_eq!(a, Answer::new(0, want.len() as u32), "round {round}: {x1} {x2} {k}");
            assert_eq!(spot_table::spots(&out, want.len()).unwrap().collect::<Vec<_>>(), want, "round {round}: {x1} {x2} {k}");
            assert!(out[12 * want.len()..].iter().all(|x| *x == 0xEE));
            let y = if want.len() == k as usize { want.last().map_or(i32::MIN, |s| s.rank) } else { i32::MIN };
            let mut read: Vec<usize> = if k == 0 { vec![] } else { read_by_report(&made.table, x1, x2, y).into_iter().collect() };
            read.insert(0, 0);
            read.dedup();
            assert_eq!(marks(&map), read, "round {round}: {x1} {x2} {k}");
            if !want.is_empty() {
                let (a, out, map) = ask(&made.table, x1, x2, k, 12 * want.len() - 1);
                assert_eq!(a, Answer::new(5, want.len() as u32));
                assert!(out.iter().all(|x| *x == 0xEE) && map.iter().all(|x| *x == 0xDD));
            }
        }
    }
}

/// Rows of one rank, hung from the far end: an addition waits beside points of its rank and comes before them, and a row lies in several nodes.
#[test]
fn rows_of_one_rank() {
    let (mut table, mut work) = (vec![0; 32 * BLOCK], vec![0; 32 * BLOCK]);
    let (mut live, mut beside) = (BTreeMap::new(), 0);
    assert_eq!(format(&mut table), Answer::new(0, 0));
    for i in 0..320 {
        let s = Spot { place: 160 - i, rank: 7 + i % 50 / 49, track: i as u32 };
        assert_eq!(add(&mut table, s, &mut work), Answer::new(0, 0));
        live.insert((s.place, s.rank), s.track);
        if i % 16 != 15 {
            continue;
        }
        let root = Node::read(&table[BLOCK * (table[7] as usize)..][..BLOCK]);
        beside += root.inserts.keys().any(|a| root.points.keys().any(|p| a.1 == p.1 && a.0 < p.0)) as usize;
        for (x1, x2) in [(i32::MIN, i32::MAX), (-100, 100), (160 - i, 165 - i), (100, -100)] {
            for k in 0..=live.len() + 1 {
                let want = due(&live, x1, x2, k);
                let (a, out, _) = ask(&table, x1, x2, k as u32, 12 * want.len());
                assert_eq!(a, Answer::new(0, want.len() as u32), "spot {i}: {x1} {x2} {k}");
                assert_eq!(spot_table::spots(&out, want.len()).unwrap().collect::<Vec<_>>(), want, "spot {i}: {x1} {x2} {k}");
            }
        }
    }
    assert!(beside >= 10, "{beside} looks with such an addition");
}

/// Request 2026-09: exactly k in range are "k found", one fewer is not; equal ranks at the last one; and whatever the unmarked blocks hold, answer and marks stay.
#[test]
fn little_reading() {
    let mut random = Random(0x0900);
    let mut spared = 0;
    for round in 0..40 {
        let blocks = [12, 32, 100, 300][round % 4];
        let spots = some_spots(8 * blocks, 5000, [2, 30, 3000][round % 3], &mut random);
        let made = make(blocks, &spots, round % 2 == 0, &mut random);
        for _ in 0..10 {
            let (x1, x2) = places(&mut random);
            let n = due(&made.live, x1, x2, usize::MAX).len() as u32;
            for k in [0, 1, n / 2, n.saturating_sub(1), n, n + 1, u32::MAX] {
                let want = due(&made.live, x1, x2, k as usize);
                let (a, out, map) = ask(&made.table, x1, x2, k, 12 * want.len());
                assert_eq!(a, Answer::new(0, want.len() as u32));
                let y = match want.last() {
                    Some(last) if want.len() == k as usize => last.rank,
                    _ => i32::MIN,
                };
                let allowed = read_by_report(&made.table, x1, x2, y);
                assert!(marks(&map).iter().all(|b| allowed.contains(b)), "round {round}: {x1} {x2} {k}");
                assert!(k > 0 || marks(&map) == [0]);
                spared += read_by_report(&made.table, x1, x2, i32::MIN).len() - marks(&map).len();
                let mut second = made.table.clone();
                for (b, bytes) in second.chunks_mut(BLOCK).enumerate() {
                    if !marks(&map).contains(&b) {
                        bytes.iter_mut().for_each(|x| *x = random.draw() as u8);
                    }
                }
                assert_eq!(ask(&second, x1, x2, k, 12 * want.len()), (a, out, map), "round {round}: {x1} {x2} {k}");
            }
        }
    }
    assert!(spared > 10_000, "{spared} blocks not read");
}

#[test]
fn damaged() {
    let mut random = Random(77);
    for round in 0..400 {
        let blocks = [9, 32, 200][round % 3];
        let spots = some_spots(random.below(16 * (blocks - 1)) + 1, 5000, 3000, &mut random);
        let mut made = make(blocks, &spots, round % 2 == 0, &mut random);
        for _ in 0..1 + random.below(6) {
            // mostly in the front of a block, where the numbers stand
            let b = random.below(blocks);
            let at = if random.below(3) == 0 { random.below(2048) } else { random.below(300) };
            made.table[2048 * b + at] = random.draw() as u8;
        }
        for _ in 0..10 {
            let (x1, x2) = places(&mut random);
            let k = if random.below(4) == 0 { u32::MAX } else { random.below(200) as u32 };
            let (a, out, map) = ask(&made.table, x1, x2, k, 12 * 100);
            match a.number {
                0 => {
                    assert!(a.detail <= k && map[0] & 1 == 1);
                    for s in spot_table::spots(&out, a.detail as usize).unwrap() {
                        assert!(holds(x1, x2, s.place));
                    }
                    assert!(out[12 * a.detail as usize..].iter().all(|x| *x == 0xEE));
                }
                number => {
                    assert!(number == 3 && a.detail == 0 || number == 5 && a.detail > 100);
                    assert!(out.iter().all(|x| *x == 0xEE) && map.iter().all(|x| *x == 0xDD));
                }
            }
        }
    }
}
