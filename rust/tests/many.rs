//! Request 2026-01, many ranges in one call: against the plain list, against the single reports, on sound and damaged tables, with every length that is lent.

use spot_reference::{make, read_by_many, reported_many, some_spots, Made, Random};
use spot_table::*;
use std::collections::BTreeSet;

const ALL: Range = Range::ALL;

#[derive(Debug, PartialEq)]
struct Left {
    answer: Answer,
    counts: Vec<u32>,
    output: Vec<u8>,
    map: Vec<u8>,
}

/// The call with so many counts, bytes of output and bytes of the read map.
fn lend(table: &[u8], ranges: &[Range], counts: usize, room: usize, map: usize) -> Left {
    let (mut counts, mut output, mut map) = (vec![0xCCCC_CCCC; counts], vec![0xEE; room], vec![0xDD; map]);
    let answer = report_many(table, ranges, &mut counts, &mut output, &mut map);
    Left { answer, counts, output, map }
}

fn ask(table: &[u8], ranges: &[Range], room: usize) -> Left {
    lend(table, ranges, ranges.len(), room, MAP)
}

/// The call is refused so, and everything is as lent.
#[track_caller]
fn is_refused(left: &Left, number: u32, detail: u32) {
    assert_eq!(left.answer, Answer::new(number, detail));
    assert!(left.counts.iter().all(|x| *x == 0xCCCC_CCCC) && left.output.iter().all(|x| *x == 0xEE) && left.map.iter().all(|x| *x == 0xDD));
}

/// Narrow, wide and empty ranges, past the door too, with all ranks or few.
fn some_range(random: &mut Random) -> Range {
    let x1 = random.below(6000) as i32 - 3000;
    let wide = [1, 30, 300, 5000][random.below(4)];
    let (x1, x2) = match random.below(10) {
        0 => (ALL.x1, ALL.x2),
        1 => (x1 + 5, x1),
        2 => (x1, x1),
        3 => (x1 + random.below(wide) as i32, x1),
        _ => (x1, x1 + random.below(wide) as i32),
    };
    let y = match random.below(5) {
        0 => i32::MIN,
        1 => i32::MAX,
        _ => random.below(4000) as i32 - 2000,
    };
    Range { x1, x2, y }
}

/// So many ranges, among them doubled ones.
fn some_ranges(n: usize, random: &mut Random) -> Vec<Range> {
    let mut out: Vec<Range> = vec![];
    while out.len() < n {
        let again = random.below(6) == 0 && !out.is_empty();
        let next = if again { out[random.below(out.len())] } else { some_range(random) };
        out.push(next);
    }
    out
}

fn some_table(round: usize, random: &mut Random) -> Made {
    let blocks = [9, 12, 32, 100, 300][round % 5];
    let spots = some_spots(random.below(16 * (blocks - 1)) + 1, 1 + random.below(5000), 1 + random.below(3000), random);
    make(blocks, &spots, round % 4 != 0, random)
}

/// What is due by the plain list: the counts, the spots in bytes, and the blocks that are marked.
fn due(made: &Made, ranges: &[Range]) -> (Vec<u32>, Vec<u8>, BTreeSet<usize>) {
    let plain: Vec<(i32, i32, i32)> = ranges.iter().map(|r| (r.x1, r.x2, r.y)).collect();
    let (counts, spots) = reported_many(&made.live, &plain);
    let bytes = |((place, rank), track): ((i32, i32), u32)| [place.to_be_bytes(), rank.to_be_bytes(), track.to_be_bytes()].concat();
    (counts, spots.into_iter().flat_map(bytes).collect(), read_by_many(&made.table, &plain))
}

/// The call gives what the plain list gives, also with noise in the blocks that it doesn't mark; with too little room it is 5.
#[track_caller]
fn gives(made: &Made, ranges: &[Range], random: &mut Random) {
    let (counts, spots, read) = due(made, ranges);
    let (n, room) = (spots.len() / SPOT, spots.len() + random.below(24));
    let left = ask(&made.table, ranges, room);
    assert_eq!((left.answer, &left.counts), (Answer::new(0, n as u32), &counts), "{ranges:?}");
    assert!(left.output[..spots.len()] == spots && left.output[spots.len()..].iter().all(|x| *x == 0xEE), "{ranges:?}");
    assert_eq!(marked(&left.map).collect::<BTreeSet<_>>(), read, "{ranges:?}");
    let bound: usize = counts.iter().map(|c| 36 * made.levels + 9 * (*c as usize / 16)).sum();
    assert!(read.len() <= 1 + bound);
    let mut second = made.table.clone();
    for (_, bytes) in second.chunks_mut(BLOCK).enumerate().filter(|(b, _)| !read.contains(b)) {
        bytes.fill_with(|| random.draw() as u8);
    }
    assert_eq!(ask(&second, ranges, room), left, "{ranges:?}");
    if n > 0 {
        is_refused(&ask(&made.table, ranges, SPOT * n - 1), 5, n as u32);
        is_refused(&ask(&made.table, ranges, 0), 5, n as u32);
        // room for each of them, and not for all
        let most = counts.iter().max().map_or(0, |c| SPOT * *c as usize);
        if most < spots.len() {
            is_refused(&ask(&made.table, ranges, most), 5, n as u32);
        }
    }
}

/// As the single reports of the library give them, on any bytes: the counts, the spots, the marks with block 0; or 3, if one of them is 3.
fn singles(table: &[u8], ranges: &[Range]) -> Option<(Vec<u32>, Vec<u8>, Vec<u8>)> {
    let mut map = [0; MAP];
    if top(table, Places { x1: 0, x2: 0 }, 0, &mut [], &mut map).number != 0 {
        return None;
    }
    let (mut counts, mut spots, mut all) = (vec![], vec![], map.to_vec());
    for r in ranges {
        let mut out = vec![0; report(table, *r, &mut [], &mut map).detail as usize * SPOT];
        let n = report(table, *r, &mut out, &mut map).result().ok()?;
        counts.push(n);
        spots.extend(out);
        all.iter_mut().zip(map).for_each(|(a, b)| *a |= b);
    }
    Some((counts, spots, all))
}

#[test]
fn ranges_of_every_number() {
    let mut random = Random(0x0101);
    for round in 0..130 {
        let made = some_table(round, &mut random);
        for n in [round % 65, random.below(65)] {
            let ranges = some_ranges(n, &mut random);
            gives(&made, &ranges, &mut random);
        }
    }
}

/// "another length gives 2", "It refuses with 6, after 2 and before 3".
#[test]
fn refusals_in_their_order() {
    let mut random = Random(0x0102);
    let made = make(12, &some_spots(150, 500, 500, &mut random), true, &mut random);
    let broken = vec![7u8; 12 * BLOCK];
    for n in 0..=66 {
        let ranges = some_ranges(n, &mut random);
        for table in [&made.table[..], &broken] {
            let is_made = table == made.table;
            for counts in [0, n.saturating_sub(1), n, n + 1, 63, 64, 65, 66, 130] {
                for map in [0, MAP - 1, MAP, MAP + 1] {
                    let left = lend(table, &ranges, counts, 12 * 150 * 66, map);
                    match (counts == n && map == MAP, n > MOST_RANGES) {
                        (false, _) => is_refused(&left, 2, 0),
                        (true, true) => is_refused(&left, 6, 0),
                        (true, false) if !is_made => is_refused(&left, 3, 0),
                        (true, false) => assert_eq!(left.answer.number, 0),
                    }
                }
            }
            // 1 comes first
            for blocks in [&table[1..], &table[..8 * BLOCK], &[]] {
                is_refused(&lend(blocks, &ranges, n, 0, MAP), 1, 0);
                is_refused(&lend(blocks, &ranges, n + 1, 0, 3), 1, 0);
            }
        }
    }
    let many = vec![ALL; 1000];
    is_refused(&ask(&made.table, &many, 12), 6, 0);
    is_refused(&lend(&made.table, &many, 64, 12, MAP), 2, 0);
}

/// 3 comes before 5, and a broken block that only the last range reads is enough; ranges that don't read it are answered.
#[test]
fn one_broken_block() {
    let mut random = Random(0x0103);
    let spots = (0..1200).map(|i| ((i, i % 7), i as u32)).collect();
    let mut made = make(100, &spots, false, &mut random);
    let near = Range { x1: 0, x2: 10, y: 0 };
    let far = Range { x1: 1190, x2: 1199, y: 0 };
    let read = |r: &Range| read_by_many(&made.table, &[(r.x1, r.x2, r.y)]);
    let only_far = *read(&far).difference(&read(&near)).last().unwrap();
    made.table[BLOCK * only_far + 2] = 9;
    gives(&made, &[near; 64], &mut random);
    for ranges in [&[far][..], &[near, far], &[far, near], &[near, near, far, near]] {
        for room in [0, 12, 12 * 5000] {
            is_refused(&ask(&made.table, ranges, room), 3, 0);
        }
    }
    is_refused(&ask(&made.table, &[near, near], 0), 5, 22);
}

/// No ranges: accepted, with block 0 alone marked, whatever else the table holds.
#[test]
fn no_ranges() {
    let mut random = Random(0x0104);
    let made = make(12, &some_spots(150, 500, 500, &mut random), true, &mut random);
    let mut noise: Vec<u8> = (0..12 * BLOCK).map(|_| random.draw() as u8).collect();
    is_refused(&ask(&noise, &[], 12), 3, 0);
    noise[..BLOCK].copy_from_slice(&made.table[..BLOCK]);
    for table in [&made.table, &noise] {
        let left = ask(table, &[], 12);
        assert_eq!((left.answer, marked(&left.map).collect::<Vec<_>>()), (Answer::new(0, 0), vec![0]));
        assert!(left.counts.is_empty() && left.output == [0xEE; 12]);
    }
}

/// The lengths at which the library changes its way: up to four ranges and more, up to 128 spots of one and more; 64 times everything.
#[test]
fn lengths_of_answers() {
    let mut random = Random(0x0105);
    let spots = (0..1200).map(|i| ((i, 7 * i % 101), i as u32)).collect();
    for waiting in [false, true] {
        let made = make(80, &spots, waiting, &mut random);
        let plain = |n: i32| Range { x1: 5, x2: 4 + n, y: i32::MIN };
        let ring = |n: i32| Range { x1: 1200 - n / 2, x2: n - n / 2 - 1, y: i32::MIN };
        for n in [1, 127, 128, 129, 500] {
            for many in [1, 2, 3, 4, 5, 6, 63, 64] {
                let mut ranges: Vec<Range> = (0..many).map(|i| if i % 2 == 0 { plain(n) } else { ring(n + 1) }).collect();
                gives(&made, &ranges, &mut random);
                ranges[many - 1] = Range { x1: 1, x2: 0, y: 50 };
                ranges[0] = plain(3);
                gives(&made, &ranges, &mut random);
            }
        }
        gives(&made, &[ALL; 64], &mut random);
    }
}

/// Many spots: 64 times a full table of 1,000 blocks.
#[test]
fn large() {
    let mut random = Random(0x0106);
    let made = make(1000, &some_spots(16 * 999, 100_000, 1000, &mut random), true, &mut random);
    gives(&made, &[ALL; 64], &mut random);
    for _ in 0..10 {
        let ranges: Vec<Range> = some_ranges(64, &mut random).into_iter().map(|r| Range { x1: 20 * r.x1, x2: 20 * r.x2, y: r.y }).collect();
        gives(&made, &ranges, &mut random);
    }
}

/// On damaged tables it answers as the single reports do.
#[test]
fn damaged() {
    let mut random = Random(0x0107);
    let (mut refused, mut answered) = (0, 0);
    for round in 0..600 {
        let mut made = some_table(round, &mut random);
        let blocks = made.table.len() / BLOCK;
        for _ in 0..1 + random.below(4) {
            let at = BLOCK * random.below(blocks) + if random.below(3) == 0 { random.below(BLOCK) } else { random.below(300) };
            made.table[at] = random.draw() as u8;
        }
        for n in [0, 1, random.below(6), random.below(65)] {
            let ranges = some_ranges(n, &mut random);
            let Some((counts, spots, marks)) = singles(&made.table, &ranges) else {
                is_refused(&ask(&made.table, &ranges, 12 * 100), 3, 0);
                refused += 1;
                continue;
            };
            let left = ask(&made.table, &ranges, spots.len());
            let total = (spots.len() / SPOT) as u32;
            assert_eq!(left, Left { answer: Answer::new(0, total), counts, output: spots, map: marks });
            if total > 0 {
                is_refused(&ask(&made.table, &ranges, SPOT * total as usize - 1), 5, total);
            }
            answered += 1;
        }
    }
    assert!(refused > 200 && answered > 200, "{refused} refused, {answered} answered");
}
