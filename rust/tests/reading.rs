//! Report, Count, Check and Format against the plain implementation, on sound tables in many arrangements and on damaged ones.

use spot_reference::{make, read_by_report, reported, some_spots, Random};
use spot_table::*;

fn marks(map: &[u8]) -> Vec<usize> {
    marked(map).collect()
}

fn ask(table: &[u8], x1: i32, x2: i32, y: i32, room: usize) -> (Answer, Vec<u8>, Vec<u8>) {
    let (mut out, mut map) = (vec![0xEE; room], vec![0xDD; 512]);
    let a = report(table, Range { x1, x2, y }, &mut out, &mut map);
    (a, out, map)
}

#[test]
fn lengths() {
    for (blocks, number) in [(0, 1), (8, 1), (9, 0), (32, 0), (4096, 0), (4097, 1)] {
        let mut table = vec![7u8; 2048 * blocks];
        assert_eq!(format(&mut table), Answer::new(number, 0));
        if number == 0 {
            assert_eq!(check(&table), Answer::new(0, 1));
            assert_eq!(count(&table), Answer::new(0, 0));
            let (a, out, map) = ask(&table, i32::MIN, i32::MAX, i32::MIN, 24);
            assert_eq!((a, marks(&map)), (Answer::new(0, 0), vec![0, 1]));
            assert!(out.iter().all(|x| *x == 0xEE));
        } else {
            assert!(table.iter().all(|x| *x == 7));
            assert_eq!(check(&table).number, 1);
            assert_eq!(count(&table).number, 1);
        }
    }
    let mut odd = vec![7u8; 2048 * 9 + 1];
    assert_eq!(format(&mut odd), Answer::new(1, 0));
}

#[test]
fn wrong_maps() {
    let mut table = vec![0u8; 2048 * 9];
    assert_eq!(format(&mut table), Answer::new(0, 0));
    for n in [0, 511, 513] {
        let mut map = vec![9u8; n];
        let mut out = vec![8u8; 12];
        assert_eq!(report(&table, Range { x1: 0, x2: 1, y: 0 }, &mut out, &mut map), Answer::new(2, 0));
        assert!(map.iter().all(|x| *x == 9) && out.iter().all(|x| *x == 8));
    }
}

#[test]
fn reports() {
    let mut random = Random(0x9E3779B97F4A7C15);
    for round in 0..60 {
        let blocks = [9, 12, 32, 100, 300, 1000][round % 6];
        let n = random.below(16 * (blocks - 1)) + 1;
        let spots = some_spots(n, 1 + random.below(5000), 1 + random.below(3000), &mut random);
        let made = make(blocks, &spots, round % 4 != 0, &mut random);
        assert_eq!(check(&made.table), Answer::new(0, 1), "round {round}");
        assert_eq!(count(&made.table), Answer::new(0, made.live.len() as u32));
        for _ in 0..40 {
            let wide = random.below(5000) as i32;
            let x1 = random.below(6000) as i32 - 3000;
            let (x1, x2) = match random.below(8) {
                0 => (i32::MIN, i32::MAX),
                1 => (x1 + 5, x1),
                // past the door
                2 | 3 => (x1 + wide, x1),
                _ => (x1, x1 + wide),
            };
            let y = match random.below(5) {
                0 => i32::MIN,
                1 => i32::MAX,
                _ => random.below(4000) as i32 - 2000,
            };
            let due = reported(&made.live, x1, x2, y);
            let due: Vec<Spot> = due.into_iter().map(|(k, t)| Spot { place: k.0, rank: k.1, track: t }).collect();
            let room = 12 * due.len() + random.below(24);
            let (a, out, map) = ask(&made.table, x1, x2, y, room);
            assert_eq!(a, Answer::new(0, due.len() as u32), "round {round}: {x1} {x2} {y}");
            assert_eq!(spot_table::spots(&out, due.len()).unwrap().collect::<Vec<_>>(), due);
            assert!(out[12 * due.len()..].iter().all(|x| *x == 0xEE));
            let read: Vec<usize> = read_by_report(&made.table, x1, x2, y).into_iter().collect();
            assert_eq!(marks(&map), read);
            assert!(read.len() <= 1 + 36 * made.levels + 9 * (due.len() / 16));
            // a second table, equal in the marked blocks alone
            let mut second: Vec<u8> = (0..made.table.len()).map(|_| random.draw() as u8).collect();
            for b in &read {
                second[2048 * b..2048 * (b + 1)].copy_from_slice(&made.table[2048 * b..2048 * (b + 1)]);
            }
            assert_eq!(ask(&second, x1, x2, y, room), (a, out, map));
            if !due.is_empty() {
                let (a, out, map) = ask(&made.table, x1, x2, y, 12 * due.len() - 1);
                assert_eq!(a, Answer::new(5, due.len() as u32));
                assert!(out.iter().all(|x| *x == 0xEE) && map.iter().all(|x| *x == 0xDD));
            }
        }
    }
}

/// "The number read is the count of ones", of the maps that reports leave and of any others.
#[test]
fn numbers_read() {
    let ones = |map: &[u8]| (0..4096).filter(|b| map[b / 8] >> (b % 8) & 1 == 1).count() as u32;
    let mut random = Random(512);
    for round in 0..20 {
        let spots = some_spots(1 + random.below(1500), 3000, 2000, &mut random);
        let made = make(160, &spots, round % 2 == 0, &mut random);
        for (x1, x2, y) in [(i32::MIN, i32::MAX, i32::MIN), (-100, 100, 0), (100, -100, 500)] {
            let (a, _, map) = ask(&made.table, x1, x2, y, 12 * 1500);
            assert_eq!((a.number, blocks_read(&map)), (0, Answer::new(0, ones(&map))));
            assert_eq!(blocks_read(&map).detail as usize, read_by_report(&made.table, x1, x2, y).len());
        }
        let noise: Vec<u8> = (0..512).map(|_| random.draw() as u8).collect();
        assert_eq!(blocks_read(&noise), Answer::new(0, ones(&noise)));
    }
    assert_eq!((blocks_read(&[0; 512]), blocks_read(&[255; 512])), (Answer::new(0, 0), Answer::new(0, 4096)));
    for n in [0, 511, 513] {
        assert_eq!(blocks_read(&vec![255; n]), Answer::new(2, 0));
    }
}

#[test]
fn damaged() {
    let mut random = Random(77);
    let spots = some_spots(1500, 3000, 2000, &mut random);
    let made = make(160, &spots, true, &mut random);
    let mut refused = 0;
    for _ in 0..4000 {
        let mut table = made.table.clone();
        for _ in 0..1 + random.below(3) {
            let at = random.below(table.len());
            table[at] ^= 1 << random.below(8);
        }
        let a = check(&table);
        assert_eq!(a.number, 0);
        let (b, out, map) = ask(&table, i32::MIN, i32::MAX, i32::MIN, 12 * 4000);
        assert!([0, 3, 5].contains(&b.number));
        if a.detail == 1 {
            assert_ne!(b.number, 3);
        }
        if b.number == 3 {
            refused += 1;
            assert_eq!(b.detail, 0);
            assert_eq!(count(&table), b);
            assert!(out.iter().all(|x| *x == 0xEE) && map.iter().all(|x| *x == 0xDD));
        }
    }
    assert!(refused > 500);
    for _ in 0..200 {
        let noise: Vec<u8> = (0..2048 * 12).map(|_| random.draw() as u8).collect();
        assert_eq!(check(&noise), Answer::new(0, 0));
        assert_eq!(count(&noise), Answer::new(3, 0));
    }
}
