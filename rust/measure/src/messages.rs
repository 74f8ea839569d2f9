//! Messages applied to a table nine tenths full, in no order and in place order, beside Add and Rebuild in the same rounds; the same changes on the flat file and in SQLite.

use crate::cases::{anywhere, changed, shuffled, spot, HALF};
use crate::clock::{now, Runs};
use crate::flat;
use crate::row::{Row, NINE_TENTHS};
use crate::sqlite::Sqlite;
use spot_reference::{Key, Random};
use spot_table::{
    add, apply, check, format, message_len, rebuild, report, write_message, Change, Range, BLOCK, MAP, MESSAGE, MOST_CHANGES, SPOT,
};
use std::collections::BTreeMap;
use std::hint::black_box;

pub const SIZES: [usize; 4] = [1, 16, 256, MOST_CHANGES];
pub const ORDERS: [&str; 2] = ["no order", "place order"];

/// What the row of such a message is called.
pub fn name(size: usize, order: &str) -> String {
    match size {
        1 => "apply 1 change".into(),
        4096 => format!("apply 4,096 changes, {order}"),
        _ => format!("apply {size} changes, {order}"),
    }
}

/// A message, and the same changes by identity: the track, or none for a withdrawal.
struct Sent {
    name: String,
    changes: Vec<(Key, Option<u32>)>,
    bytes: Vec<u8>,
}

impl Sent {
    /// Half of the changes withdraw live spots, the others add new ones; one alone adds.
    fn new(size: usize, order: &str, live: &BTreeMap<Key, u32>, random: &mut Random) -> Sent {
        let mut changes: Vec<(Key, Option<u32>)> = vec![];
        let old = shuffled(live.keys().copied().collect::<Vec<_>>(), random);
        changes.extend(old.iter().take(size / 2).map(|k| (*k, None)));
        while changes.len() < size {
            let k = (random.below(2 * HALF as usize) as i32 - HALF, random.below(1 << 16) as i32);
            if !live.contains_key(&k) {
                changes.push((k, Some(7)));
            }
        }
        let mut changes = shuffled(changes, random);
        if order == ORDERS[1] {
            changes.sort_unstable();
        }
        let list: Vec<u8> = changes.iter().flat_map(|(k, t)| change(*k, *t).to_bytes()).collect();
        let mut bytes = vec![0; MESSAGE];
        assert_eq!(write_message(&list, &mut bytes).number, 0);
        bytes.truncate(message_len(&bytes).unwrap());
        Sent { name: name(size, order), changes, bytes }
    }
}

fn change(k: Key, track: Option<u32>) -> Change {
    match track {
        Some(t) => Change::Add(spot(k, t)),
        None => Change::Withdraw { place: k.0, rank: k.1 },
    }
}

fn timed<T>(runs: &mut Option<Runs>, f: impl FnOnce() -> T) -> T {
    let start = now();
    let result = black_box(f());
    runs.get_or_insert_with(Vec::new).push(now() - start);
    result
}

fn in_sqlite(s: &Sqlite, changes: &[(Key, Option<u32>)]) {
    s.begin();
    for (k, track) in changes {
        match track {
            Some(t) => s.add(*k, *t),
            None => s.withdraw(*k),
        }
    }
    s.commit();
}

pub fn rows(blocks: usize, rounds: usize, random: &mut Random) -> Vec<Row> {
    let live = anywhere(16 * (blocks - 1) * 9 / 10, random);
    let (mut table, mut work) = (vec![0; BLOCK * blocks], vec![0; BLOCK * blocks]);
    assert_eq!(format(&mut table).number, 0);
    for (k, t) in &live {
        assert_eq!(add(&mut table, spot(*k, *t), &mut work).number, 0);
    }
    assert_eq!((rebuild(&mut table, &mut work).number, check(&table).detail), (0, 1));
    let file = flat::make(live.iter());
    #[cfg(sqlite)]
    let sqlite = Some(Sqlite::new(live.iter()));
    #[cfg(not(sqlite))]
    let sqlite: Option<Sqlite> = None;
    let mut sent = vec![Sent::new(1, ORDERS[0], &live, random)];
    for size in SIZES.into_iter().skip(1).filter(|n| *n <= live.len()) {
        sent.extend(ORDERS.map(|order| Sent::new(size, order, &live, random)));
    }
    let mut runs: Vec<Vec<Option<Runs>>> = sent.iter().map(|_| vec![None; 6]).collect();
    let mut touched = vec![];
    for round in 0..rounds {
        let mut own = table.clone();
        let mut renewal = None;
        timed(&mut renewal, || assert_eq!(rebuild(&mut own, &mut work).number, 0));
        for (m, runs) in sent.iter().zip(&mut runs) {
            own.copy_from_slice(&table);
            timed(&mut runs[0], || assert_eq!(apply(&mut own, &m.bytes, &mut work).number, 0));
            let cut = timed(&mut runs[1], || flat::apply_anew(black_box(&file), &m.changes));
            if let Some(s) = &sqlite {
                timed(&mut runs[3], || in_sqlite(s, &m.changes));
            }
            if round == 0 {
                is_same(&own, &cut, sqlite.as_ref());
                touched.push([Some(changed(&own, &table) as f64), Some(flat::blocks(&cut) as f64), None]);
            }
            if let Some(s) = &sqlite {
                let back: Vec<(Key, Option<u32>)> = m.changes.iter().map(|(k, _)| (*k, live.get(k).copied())).collect();
                in_sqlite(s, &back);
            }
            // beside one change an Add of the same spot, beside several a Rebuild
            if let [(k, Some(t))] = m.changes[..] {
                own.copy_from_slice(&table);
                timed(&mut runs[5], || assert_eq!(add(&mut own, spot(k, t), &mut work).number, 0));
            } else {
                runs[5].get_or_insert_with(Vec::new).extend(renewal.iter().flatten());
            }
        }
    }
    let mut out = vec![];
    for ((m, runs), touched) in sent.into_iter().zip(runs).zip(touched) {
        out.push(Row { blocks, state: NINE_TENTHS, call: m.name, spots: live.len(), runs, touched });
    }
    out
}

/// All hold the same spots.
fn is_same(table: &[u8], file: &[u8], sqlite: Option<&Sqlite>) {
    let (mut out, mut map) = (vec![0; file.len()], [0; MAP]);
    let n = report(table, Range::ALL, &mut out, &mut map).detail as usize;
    assert!(SPOT * n == file.len() && out == file);
    if let Some(s) = sqlite {
        let mut own = vec![0; file.len()];
        assert!(s.report(i32::MIN, i32::MAX, i32::MIN, &mut own) == n && own == file);
    }
}
