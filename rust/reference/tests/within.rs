//! The rule of request 2026-10, as it is read here, has what the paper promises of it: against the plain list.

use spot_reference::{holds, make, read_by_report, some_spots, top_order, top_within, Random};
use std::collections::BTreeSet;

#[test]
fn promises() {
    let mut random = Random(0x1010);
    for round in 0..40 {
        let blocks = [9, 12, 32, 100][round % 4];
        let spots = some_spots(random.below(16 * (blocks - 1)) + 1, 3000, [1, 5, 40, 3000][round / 4 % 4], &mut random);
        let made = make(blocks, &spots, round % 3 != 0, &mut random);
        for i in 0..6 {
            let [a, b] = [0; 2].map(|_| random.below(4000) as i32 - 2000);
            let (x1, x2) = [(a, b), (b, a), (i32::MIN, i32::MAX)][i % 3];
            let k = [1, 7, 60, u32::MAX][random.below(4)];
            let mut all: Vec<_> = made.live.iter().filter(|(key, _)| holds(x1, x2, key.0)).map(|(key, t)| (*key, *t)).collect();
            all.sort_by_key(|s| top_order(s.0));
            let last = all.get(k as usize - 1).map_or(i32::MIN, |s| s.0 .1);
            let mut by_top = read_by_report(&made.table, x1, x2, last);
            by_top.remove(&0);
            let mut before = top_within(&made.table, x1, x2, k, 0);
            assert_eq!((before.spots.len(), before.ceiling, before.read.len()), (0, i32::MAX, 0));
            for allowance in 1..by_top.len() as u32 + 3 {
                let now = top_within(&made.table, x1, x2, k, allowance);
                let name = format!("round {round}: {x1} {x2} {k} {allowance}");
                assert!(all.starts_with(&now.spots) && now.spots.starts_with(&before.spots) && now.ceiling <= before.ceiling, "{name}");
                assert!(all[now.spots.len()..].iter().all(|s| s.0 .1 <= now.ceiling), "{name}");
                assert!(now.read.starts_with(&before.read) && now.read.len() == by_top.len().min(allowance as usize), "{name}");
                before = now;
            }
            assert_eq!(before.spots.len(), all.len().min(k as usize));
            assert_eq!(before.read.into_iter().collect::<BTreeSet<_>>(), by_top);
        }
    }
}
