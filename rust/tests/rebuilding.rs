//! Rebuild against the plain implementation of soundness and of the live spots.

use spot_reference::{make, some_spots, sound, Random};
use spot_table::*;

#[test]
fn rebuilds() {
    let mut random = Random(0xB0157E2B1AE);
    for round in 0..60 {
        let blocks = [9, 10, 12, 32, 100, 300, 1000, 4096][round % 8];
        let n = match round % 5 {
            0 => 16 * (blocks - 1),
            1 => 0,
            _ => random.below(16 * (blocks - 1)),
        };
        let spots = some_spots(n, 1 + random.below(50000), 1 + random.below(30000), &mut random);
        let mut made = make(blocks, &spots, round % 3 != 0, &mut random);
        assert_eq!(sound(&made.table).as_ref(), Ok(&made.live), "round {round}");
        assert_eq!(check(&made.table), Answer::new(0, 1));
        let extra = random.below(40);
        let mut work: Vec<u8> = (0..made.table.len() + extra).map(|_| random.draw() as u8).collect();
        let before = work.clone();
        assert_eq!(rebuild(&mut made.table, &mut work), Answer::new(0, 0));
        assert_eq!(sound(&made.table).as_ref(), Ok(&made.live), "round {round}, rebuilt");
        assert_eq!(check(&made.table), Answer::new(0, 1));
        assert_eq!(count(&made.table), Answer::new(0, made.live.len() as u32));
        assert!(work[..made.table.len()].iter().all(|x| *x == 0));
        assert_eq!(work[made.table.len()..], before[made.table.len()..]);
    }
}

#[test]
fn refusals() {
    let mut random = Random(5);
    let mut table = vec![3u8; 2048 * 8];
    let mut work = vec![4u8; 2048 * 9];
    assert_eq!(rebuild(&mut table, &mut work), Answer::new(1, 0));
    let spots = some_spots(100, 500, 500, &mut random);
    let made = make(12, &spots, true, &mut random);
    let mut table = made.table.clone();
    assert_eq!(rebuild(&mut table, &mut work), Answer::new(2, 0));
    assert!(work.iter().all(|x| *x == 4) && table == made.table);
    let mut work = vec![4u8; 2048 * 12 + 5];
    table[2050] = 9;
    let damaged = table.clone();
    assert_eq!(rebuild(&mut table, &mut work), Answer::new(3, 0));
    assert!(table == damaged && work[..2048 * 12].iter().all(|x| *x == 0) && work[2048 * 12..].iter().all(|x| *x == 4));
    for _ in 0..2000 {
        let mut table = made.table.clone();
        let at = random.below(table.len());
        table[at] ^= 1 << random.below(8);
        let was = table.clone();
        let wise = sound(&table).is_ok();
        assert_eq!(check(&table).detail == 1, wise);
        let mut work = vec![4u8; 2048 * 12];
        let a = rebuild(&mut table, &mut work);
        assert!([0, 3].contains(&a.number) && (!wise || a.number == 0));
        if a.number == 3 {
            assert!(table == was);
        }
    }
}
