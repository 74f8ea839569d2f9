//! A pressed tour of 512 spots: made, and asked for few and for many spots.

use crate::cases::{anywhere, ones, shuffled, spot, timed, Contenders, HALF};
use crate::clock::race;
use crate::flat;
use crate::row::{self, Row};
use spot_reference::{Key, Random};
use spot_table::{press, tour_len, tour_report, Range, BLOCK, MAP, SPOT, TOUR, TOUR_SPOTS};
use std::hint::black_box;

pub fn rows(rounds: usize, random: &mut Random) -> Vec<Row> {
    let spots = anywhere(TOUR_SPOTS, random);
    let file = flat::make(spots.iter());
    let mut lent = vec![0; TOUR];
    assert_eq!(press(&file, &mut lent).number, 0);
    lent.truncate(tour_len(&lent).unwrap());
    let unsorted = shuffled(spots.iter().map(|(k, t)| (*k, *t)).collect(), random);
    let mut out = vec![pressing(rounds, &unsorted, &file)];
    let mut ranks: Vec<i32> = spots.keys().map(|k| k.1).collect();
    ranks.sort_unstable();
    let all = (i32::MIN, i32::MAX);
    for (name, places, y) in [
        ("wide, 1 %", (-HALF / 100, HALF / 100), i32::MIN),
        ("a tenth", (-HALF / 10, HALF / 10), i32::MIN),
        ("a tenth past the door", (HALF - HALF / 10, HALF / 10 - HALF), i32::MIN),
        ("everything", all, i32::MIN),
        ("~20 best of all", all, ranks[ranks.len() - 20]),
    ] {
        out.push(report(rounds, name, places, y, &lent, &file));
    }
    out
}

fn row(call: String, blocks: usize, spots: usize, contenders: Contenders, rounds: usize, touched: [Option<f64>; 3]) -> Row {
    Row { blocks, state: row::PRESSED, call, spots, runs: race(rounds, contenders), touched }
}

/// Beside sorting the spots by place, in the order in which they come, and cutting a file of them.
fn pressing(rounds: usize, unsorted: &[(Key, u32)], file: &[u8]) -> Row {
    let cut = || {
        let mut list = black_box(unsorted).to_vec();
        list.sort_unstable();
        list.into_iter().flat_map(|(k, t)| spot(k, t).to_bytes()).collect::<Vec<u8>>()
    };
    assert_eq!(cut(), file);
    let mut lent = vec![0; TOUR];
    let contenders: Contenders = vec![timed(|| press(black_box(file), &mut lent)), None, None, None, timed(cut)];
    let blocks = TOUR / BLOCK;
    row("press".into(), blocks, unsorted.len(), contenders, rounds, [Some(blocks as f64), Some(flat::blocks(file) as f64), None])
}

fn report(rounds: usize, name: &str, (x1, x2): (i32, i32), y: i32, tour: &[u8], file: &[u8]) -> Row {
    let mut map = [0; MAP];
    let mut outs = vec![vec![0u8; SPOT * TOUR_SPOTS]; 3];
    let [a, b, c] = &mut outs[..] else { unreachable!() };
    let n = tour_report(tour, Range { x1, x2, y }, a, &mut map).result().unwrap() as usize;
    assert!(flat::report(file, x1, x2, y, b) == n && flat::report_halved(file, x1, x2, y, c) == n);
    assert!(a[..SPOT * n] == b[..SPOT * n] && a[..SPOT * n] == c[..SPOT * n]);
    let touched = [ones(&map), flat::blocks(file) as f64, flat::blocks_halved(file, x1, x2) as f64];
    let contenders: Contenders = vec![
        timed(|| tour_report(black_box(tour), Range { x1, x2, y }, a, &mut map)),
        timed(|| flat::report(black_box(file), x1, x2, y, b)),
        timed(|| flat::report_halved(black_box(file), x1, x2, y, c)),
        None,
        None,
    ];
    row(format!("report {name}"), tour.len() / BLOCK, n, contenders, rounds, touched.map(Some))
}
