//! Add and Withdraw against a sorted map, the plain implementation of soundness, and the rule on what a roomy root lets change.

use spot_reference::histories::{next, outside, Change, Kind, Live, KINDS};
use spot_reference::{make, some_spots, sound, Key, Node, Random};
use spot_table::*;

fn spot(k: Key, track: u32) -> Spot {
    Spot { place: k.0, rank: k.1, track }
}

fn call(c: Change, table: &mut [u8], work: &mut [u8]) -> Answer {
    match c {
        Change::Add(k, t) => add(table, spot(k, t), work),
        Change::Withdraw(k) => withdraw(table, k.0, k.1, work),
    }
}

fn root(table: &[u8]) -> usize {
    (table[6] as usize) << 8 | table[7] as usize
}

fn roomy(table: &[u8]) -> bool {
    let n = Node::read(&table[BLOCK * root(table)..][..BLOCK]);
    n.level > 0 && n.points.len() > 32 && n.inserts.len() < 64 && n.deletes.len() < 16
}

/// One history; every so many calls the table is read as a whole.
fn history(kind: Kind, blocks: usize, fill: usize, calls: usize, look: usize, random: &mut Random) {
    let capacity = 16 * (blocks - 1);
    let mut table = vec![random.draw() as u8; BLOCK * blocks];
    let mut work = vec![random.draw() as u8; BLOCK * blocks + 7];
    assert_eq!(format(&mut table), Answer::new(0, 0));
    let mut live = Live::new();
    let (mut before, mut spare, zeros) = (table.clone(), work.clone(), vec![0; table.len()]);
    for step in 0..calls {
        let mut c = next(kind, step, &live, capacity, fill, random);
        if random.below(40) == 0 {
            c = c.at(outside(random));
        }
        before.copy_from_slice(&table);
        spare.copy_from_slice(&work);
        let light = roomy(&table);
        let nothing = matches!(c, Change::Withdraw(k) if !live.spots.contains_key(&k));
        let a = call(c, &mut table, &mut work);
        let number = live.apply(c, table.len(), work.len());
        assert_eq!(a, Answer::new(number, 0), "{kind:?}, {blocks} blocks, call {step}: {c:?}");
        if number == 0 {
            assert!(work[..table.len()] == zeros && work[table.len()..] == spare[table.len()..]);
        } else {
            assert!([4, 9].contains(&number) && table == before && work == spare);
        }
        assert_eq!(
            u32::from_be_bytes(table[8..12].try_into().unwrap()),
            live.spots.len() as u32,
            "the figure in block 0, call {step}: {c:?}"
        );
        assert!(!nothing || table == before, "call {step}: {c:?} wrote, though nothing was there");
        if light {
            let r = root(&before);
            assert!(
                (1..blocks).all(|b| b == r || table[BLOCK * b..][..BLOCK] == before[BLOCK * b..][..BLOCK]),
                "call {step}: a block beside the root changed"
            );
        }
        if step % look == 0 || step + 1 == calls {
            assert_eq!(sound(&table).as_ref(), Ok(&live.spots), "{kind:?}, {blocks} blocks, call {step}: {c:?}");
            assert_eq!((check(&table), count(&table)), (Answer::new(0, 1), Answer::new(0, live.spots.len() as u32)));
        }
    }
}

#[test]
fn small_tables() {
    let mut random = Random(0x5107);
    for kind in KINDS {
        for blocks in [9, 10, 12, 32] {
            let capacity = 16 * (blocks - 1);
            for fill in [capacity / 3, capacity] {
                history(kind, blocks, fill, 4000, 1, &mut random);
            }
        }
    }
}

#[test]
fn larger_tables() {
    let mut random = Random(0x5108);
    for kind in KINDS {
        history(kind, 300, 16 * 299, 20000, 500, &mut random);
        history(kind, 300, 2000, 6000, 500, &mut random);
    }
}

/// Tables in arrangements that no history need bring about, with changes waiting in every inner node.
#[test]
fn any_sound_table() {
    let mut random = Random(0x5109);
    for round in 0..40 {
        let blocks = [12, 32, 100, 300][round % 4];
        let capacity = 16 * (blocks - 1);
        let n = if round % 3 == 0 { capacity } else { random.below(capacity) };
        let spots = some_spots(n, 1 + random.below(50000), 1 + random.below(30000), &mut random);
        let made = make(blocks, &spots, true, &mut random);
        let mut live = Live::new();
        for (k, t) in &made.live {
            assert_eq!(live.apply(Change::Add(*k, *t), made.table.len(), made.table.len()), 0);
        }
        let mut table = made.table;
        let mut work = vec![1u8; table.len()];
        for step in 0..600 {
            let mut c = next(KINDS[round % 4], step, &live, capacity, live.spots.len() + 1, &mut random);
            if random.below(40) == 0 {
                c = c.at(outside(&mut random));
            }
            let a = call(c, &mut table, &mut work);
            assert_eq!(a.number, live.apply(c, table.len(), work.len()));
            if step % 20 == 0 {
                assert_eq!(sound(&table).as_ref(), Ok(&live.spots), "round {round}, call {step}: {c:?}");
            }
        }
    }
}

#[test]
fn refusals() {
    let mut random = Random(6);
    let mut table = vec![3u8; BLOCK * 8];
    let mut work = vec![4u8; BLOCK * 9];
    assert_eq!(add(&mut table, spot((0, 0), 0), &mut work), Answer::new(1, 0));
    assert_eq!(withdraw(&mut table, 0, 0, &mut work), Answer::new(1, 0));
    let mut table = vec![0u8; BLOCK * 9];
    assert_eq!(format(&mut table).number, 0);
    let was = table.clone();
    assert_eq!(add(&mut table, spot((0, 0), 0), &mut work[1..]), Answer::new(2, 0));
    assert_eq!(withdraw(&mut table, 0, 0, &mut work[1..]), Answer::new(2, 0));
    assert!(table == was && work.iter().all(|x| *x == 4));
    let spots = some_spots(150, 500, 500, &mut random);
    let made = make(12, &spots, true, &mut random);
    for round in 0..4000 {
        let mut table = made.table.clone();
        for _ in 0..1 + random.below(3) {
            let at = if round % 2 == 0 { random.below(BLOCK) } else { random.below(table.len()) };
            table[at] ^= 1 << random.below(8);
        }
        let was = table.clone();
        let wise = sound(&table).is_ok();
        let mut work = vec![4u8; BLOCK * 12 + 3];
        let k = (random.below(500) as i32, random.below(500) as i32);
        let a = if round % 3 == 0 { add(&mut table, spot(k, 9), &mut work) } else { withdraw(&mut table, k.0, k.1, &mut work) };
        assert!(a.detail == 0 && [0, 3, 4].contains(&a.number) && !(wise && a.number == 3));
        assert!(a.number == 0 || table == was);
        let lent: u8 = if a.number == 4 { 4 } else { 0 };
        assert!(work[..BLOCK * 12].iter().all(|x| *x == lent) && work[BLOCK * 12..].iter().all(|x| *x == 4));
        if wise {
            assert!(sound(&table).is_ok());
        }
    }
    let mut noise: Vec<u8> = (0..BLOCK * 9).map(|_| random.draw() as u8).collect();
    assert_eq!(add(&mut noise, spot((1, 2), 3), &mut work), Answer::new(3, 0));
}
