//! A route in memory, with lists that make room for themselves (feature `alloc`): the plan of a room, the best of each wall, and a rehang in one message.
//! `cargo run --example room --features alloc`
use spot_table::*;

const BLOCKS: usize = 64;

pub fn run() -> Result<Vec<String>, Box<dyn std::error::Error>> {
    let mut work = vec![0; BLOCKS * BLOCK];
    let mut table = Table::format(vec![0; BLOCKS * BLOCK])?;
    let route: Vec<Change> = (0..400).map(|i| Change::Add(Spot { place: 25 * i, rank: i * 7 % 10, track: 1000 + i as u32 })).collect();
    table.apply(&Message::write_to_vec(&route)?, &mut work)?;

    // four walls, the last of which runs on past the door
    let walls = [Range::new(0..=1500, 8), Range::new(1500..=2500, 8), Range::new(2500..=4000, 9), Range { x1: 9500, x2: 300, y: 9 }];
    let mut lines = vec![];
    for (wall, spots) in (1..).zip(table.report_many_to_vecs(&walls)?) {
        lines.push(format!("wall {wall}: {} spots, the first is track {}", spots.len(), spots[0].track));
    }
    let best = table.top_to_vec(2000..=2500, 2)?;
    lines.push(format!("the best from 20 to 25 m: tracks {} and {}", best[0].track, best[1].track));

    let rehang: Vec<Change> = best.iter().map(|s| Change::Withdraw { place: s.place, rank: s.rank }).collect();
    table.apply(&Message::write_to_vec(&rehang)?, &mut work)?;
    lines.push(format!("after the rehang: track {}, of {} spots", table.top_to_vec(2000..=2500, 1)?[0].track, table.count()?));
    Ok(lines)
}

#[allow(dead_code)]
fn main() -> Result<(), Box<dyn std::error::Error>> {
    for line in run()? {
        println!("{line}");
    }
    Ok(())
}
