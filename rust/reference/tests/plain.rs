//! The walk in plain Rust against the plain list and the words on marks, with ranges that run on past the door.

use spot_reference::{make, nodes, plain, read_by_report, reported, some_spots, Node, Random, HIGHEST_PLACE, LOWEST_PLACE};

fn bytes(((place, rank), track): ((i32, i32), u32)) -> Vec<u8> {
    [place.to_be_bytes(), rank.to_be_bytes(), track.to_be_bytes()].concat()
}

#[test]
fn reports() {
    let mut random = Random(0x0905);
    for round in 0..60 {
        let blocks = [9, 12, 32, 100, 300, 1000][round % 6];
        let spots = some_spots(random.below(16 * (blocks - 1)) + 1, 1 + random.below(5000), 1 + random.below(3000), &mut random);
        let made = make(blocks, &spots, round % 4 != 0, &mut random);
        for i in 0..40 {
            let [a, b] = [0; 2].map(|_| random.below(6000) as i32 - 3000);
            let (x1, x2) = [(a, b), (b, a), (a, a), (a + 1, a), (a + 2, a), (i32::MAX, i32::MIN), (i32::MIN, i32::MAX)][i % 7];
            let y = if random.below(3) == 0 { i32::MIN } else { random.below(4000) as i32 - 2000 };
            let due: Vec<u8> = reported(&made.live, x1, x2, y).into_iter().flat_map(bytes).collect();
            let (mut out, mut map) = (vec![0xEE; due.len() + 12], [0xDD; 512]);
            assert_eq!(plain::report(&made.table, x1, x2, y, &mut out, &mut map), Some(due.len() / 12), "round {round}: {x1} {x2} {y}");
            assert!(out[..due.len()] == due && out[due.len()..] == [0xEE; 12], "round {round}: {x1} {x2} {y}");
            let read: Vec<usize> = (0..4096).filter(|b| map[b / 8] >> (b % 8) & 1 == 1).collect();
            assert_eq!(read, read_by_report(&made.table, x1, x2, y).into_iter().collect::<Vec<_>>(), "round {round}: {x1} {x2} {y}");
        }
    }
}

/// A node with a place outside the limits is refused where it is read, and only there.
#[test]
fn places_outside() {
    let mut random = Random(0x0708);
    let made = make(100, &(0..1100).map(|i| ((i - 550, i * 7 % 1000), i as u32)).collect(), true, &mut random);
    let ranges = [(i32::MIN, i32::MAX), (-540, -500), (0, 0), (500, 540), (400, -400), (i32::MAX, i32::MIN)];
    let (mut refused, mut answered) = (0, 0);
    for (place, is_left) in [(LOWEST_PLACE - 1, true), (HIGHEST_PLACE + 1, false)] {
        let edge = nodes(&made.table).into_iter().filter(|n| if is_left { n.from.is_none() } else { n.to.is_none() });
        for at in edge.filter(|n| n.node.points.len() > 2) {
            let mut edited = vec![];
            let mut ranks: Vec<(i32, i32)> = at.node.points.keys().copied().collect();
            ranks.sort_by_key(|k| k.1);
            let middle = ranks[ranks.len() / 2];
            let mut edit = |change: &dyn Fn(&mut Node)| {
                let (mut node, mut table) = (at.node.clone(), made.table.clone());
                change(&mut node);
                node.write(&mut table[2048 * at.block..2048 * (at.block + 1)]);
                edited.push(table);
            };
            edit(&|node| {
                node.points.remove(&middle);
                node.points.insert((place, middle.1), 7);
            });
            if at.node.level > 0 && ranks.len() >= 32 {
                let j = if is_left { 0 } else { at.node.entries.len() - 1 };
                edit(&|node| node.inserts.extend([((place, i32::MIN), 9)]));
                edit(&|node| node.deletes.extend([(place, i32::MIN)]));
                edit(&|node| node.entries[j.max(1)].low = Some((place, 0)));
                if at.node.entries[j].size > 0 {
                    edit(&|node| node.entries[j].top = node.entries[j].top.map(|k| (place, k.1)));
                    edit(&|node| node.entries[j].bottom = node.entries[j].bottom.map(|k| (place, k.1)));
                }
            }
            for (x1, x2) in ranges {
                let n = reported(&made.live, x1, x2, 0).len();
                let is_read = read_by_report(&made.table, x1, x2, 0).contains(&at.block);
                for table in &edited {
                    let mut out = vec![0; 12 * 2000];
                    assert_eq!(plain::report(table, x1, x2, 0, &mut out, &mut [0; 512]), (!is_read).then_some(n));
                    refused += is_read as usize;
                    answered += !is_read as usize;
                }
            }
        }
    }
    assert!(refused > 50 && answered > 20, "{refused} refused, {answered} answered");
}
