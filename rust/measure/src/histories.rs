//! Add and Withdraw over four kinds of histories, beside zeroing the work area, which the scope paper makes each of them do. A second pass counts the blocks written
//! and how often the table was laid out anew. Prints times and ratios; tests nothing.

use spot_reference::histories::{anywhere, next, Change, Kind, Live, KINDS};
use spot_reference::{Key, Random};
use spot_table::*;
use std::hint::black_box;
use std::time::Instant;

/// The table is as a rebuild leaves it: root in block 1, the blocks in use are the first ones, and no change waits.
fn anew(table: &[u8]) -> bool {
    let used = |b: usize| table[12 + b / 8] >> (b % 8) & 1 == 1;
    let blocks = table.len() / BLOCK;
    let last = (0..blocks).take_while(|b| used(*b)).count();
    table[6] == 0
        && table[7] == 1
        && (last..blocks).all(|b| !used(b))
        && (1..last).all(|b| table[BLOCK * b + 5] == 0 && table[BLOCK * b + 6] == 0)
}

fn waiting(table: &[u8]) -> bool {
    let blocks = table.len() / BLOCK;
    (1..blocks).any(|b| table[12 + b / 8] >> (b % 8) & 1 == 1 && (table[BLOCK * b + 5] != 0 || table[BLOCK * b + 6] != 0))
}

fn spot(k: Key, track: u32) -> Spot {
    Spot { place: k.0, rank: k.1, track }
}

struct Sums {
    adds: f64,
    add_ns: f64,
    drops: f64,
    drop_ns: f64,
    zero_ns: f64,
    zeros: f64,
}

pub fn main() {
    println!(
        "{:>6} {:>13} {:>7} {:>9} {:>9} {:>9} {:>7} {:>7} {:>12} {:>8} {:>9}",
        "blocks", "history", "spots", "zero us", "add us", "drop us", "add", "drop", "written/add", "adds", "fallbacks"
    );
    for blocks in [32usize, 300, 4096] {
        for kind in KINDS {
            for full in [false, true] {
                if kind == Kind::AtCapacity && !full {
                    continue;
                }
                run(blocks, kind, full);
            }
        }
    }
}

fn run(blocks: usize, kind: Kind, full: bool) {
    let mut random = Random(77);
    let capacity = 16 * (blocks - 1);
    let fill = if full { capacity * 15 / 16 } else { capacity * 2 / 5 };
    let mut table = vec![0u8; BLOCK * blocks];
    let mut work = vec![0u8; BLOCK * blocks];
    assert_eq!(format(&mut table).number, 0);
    let mut live = Live::new();
    let mut step = 0;
    let target = if kind == Kind::AtCapacity { capacity } else { fill };
    while live.spots.len() < target {
        let k = if kind == Kind::Rising { (step as i32, random.draw() as i32) } else { anywhere(&mut random) };
        assert_eq!(add(&mut table, spot(k, 1), &mut work).number, 0);
        assert_eq!(live.apply(Change::Add(k, 1), table.len(), work.len()), 0);
        step += 1;
    }
    let mut s = Sums { adds: 0.0, add_ns: 0.0, drops: 0.0, drop_ns: 0.0, zero_ns: 0.0, zeros: 0.0 };
    let calls = if blocks == 4096 { 4000 } else { 20000 };
    for _ in 0..calls {
        let c = next(kind, step, &live, capacity, fill, &mut random);
        step += 1;
        let start = Instant::now();
        let a = match c {
            Change::Add(k, t) => add(black_box(&mut table), spot(k, t), &mut work),
            Change::Withdraw(k) => withdraw(black_box(&mut table), k.0, k.1, &mut work),
        };
        let ns = start.elapsed().as_nanos() as f64;
        let accepted = live.apply(c, table.len(), work.len()) == 0;
        assert_eq!(a.number == 0, accepted);
        match c {
            Change::Add(..) if accepted => {
                s.adds += 1.0;
                s.add_ns += ns;
            }
            Change::Withdraw(..) => {
                s.drops += 1.0;
                s.drop_ns += ns;
            }
            _ => {}
        }
        if step % 8 == 0 {
            let start = Instant::now();
            black_box(&mut work).fill(0);
            s.zero_ns += start.elapsed().as_nanos() as f64;
            s.zeros += 1.0;
        }
    }
    let (mut written, mut adds, mut fallbacks) = (0usize, 0usize, 0usize);
    let mut before = table.clone();
    for _ in 0..(if blocks == 4096 { 1500 } else { 20000 }) {
        let c = next(kind, step, &live, capacity, fill, &mut random);
        step += 1;
        let waited = waiting(&table);
        let accepted = live.apply(c, table.len(), work.len()) == 0;
        let _ = match c {
            Change::Add(k, t) => add(&mut table, spot(k, t), &mut work),
            Change::Withdraw(k) => withdraw(&mut table, k.0, k.1, &mut work),
        };
        let mut changed = 0;
        for b in 0..blocks {
            let r = BLOCK * b..BLOCK * b + BLOCK;
            if table[r.clone()] != before[r.clone()] {
                changed += 1;
                before[r.clone()].copy_from_slice(&table[r]);
            }
        }
        let again = waited && changed > 4 && anew(&table);
        fallbacks += again as usize;
        if matches!(c, Change::Add(..)) && accepted {
            adds += 1;
            written += changed;
        }
    }
    let (zero, add, drop) = (s.zero_ns / s.zeros / 1e3, s.add_ns / s.adds.max(1.0) / 1e3, s.drop_ns / s.drops.max(1.0) / 1e3);
    let levels = table[5];
    println!(
        "{blocks:>6} {:>13} {:>7} {zero:>9.1} {add:>9.1} {drop:>9.1} {:>7.2} {:>7.2} {:>12.2} {adds:>8} {fallbacks:>9}   {levels} levels",
        format!("{kind:?}"),
        live.spots.len(),
        add / zero,
        drop / zero,
        written as f64 / adds.max(1) as f64
    );
}
