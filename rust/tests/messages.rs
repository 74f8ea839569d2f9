//! Request 2026-06, lists of changes over the air: writer and reader against ones written apart, and applied messages against the plain list, change by change; every byte that is lent.

use spot_reference::histories::{anywhere, next, outside, Change, Live, KINDS};
use spot_reference::message::{changes_in, changes_of, list_of, message_of, told, HEAD, ROW};
use spot_reference::shown::{capacity, header_ok, layable, looked_up, walked};
use spot_reference::{make, some_spots, sound, Key, Random};
use spot_table::{add, apply, check, count, format, read_message, withdraw, write_message, Answer, Spot, BLOCK, MESSAGE};
use std::collections::BTreeMap;

const LENT: u8 = 0xEE;

fn answer((number, detail): (u32, u32)) -> Answer {
    Answer::new(number, detail)
}

fn spot(k: Key, track: u32) -> Spot {
    Spot { place: k.0, rank: k.1, track }
}

fn figure(table: &[u8]) -> usize {
    u32::from_be_bytes(table[8..12].try_into().unwrap()) as usize
}

/// Any change: of places inside the limits, all ranks and tracks, and now and then of a place outside.
fn some_change(beyond: bool, random: &mut Random) -> Change {
    let (k, t) = (anywhere(random), [0, random.draw() as u32][random.below(2)]);
    let c = if random.below(2) == 0 { Change::Add(k, t) } else { Change::Withdraw(k) };
    if beyond && random.below(9) == 0 {
        return c.at(outside(random));
    }
    c
}

fn some_changes(n: usize, beyond: bool, random: &mut Random) -> Vec<Change> {
    (0..n).map(|_| some_change(beyond, random)).collect()
}

/// The writer answers as the one written apart, and leaves every byte as that one's message or as lent.
#[track_caller]
fn writes(list: &[u8], lent: usize) -> Answer {
    let changes = changes_in(list);
    let due = answer(told(changes.as_deref(), |c| message_of(c).len(), lent));
    let mut out = vec![LENT; lent];
    assert_eq!(write_message(list, &mut out), due, "{changes:?}, {lent} bytes lent");
    let message = if due.number == 0 { message_of(&changes.unwrap()) } else { vec![] };
    assert!(out[..message.len()] == message && out[message.len()..].iter().all(|x| *x == LENT));
    due
}

#[track_caller]
fn reads(message: &[u8], lent: usize) -> Answer {
    let changes = changes_of(message);
    let due = answer(told(changes.as_deref(), |c| ROW * c.len(), lent));
    let mut out = vec![LENT; lent];
    assert_eq!(read_message(message, &mut out), due, "{changes:?}, {lent} bytes lent");
    let list = if due.number == 0 { list_of(&changes.unwrap()) } else { vec![] };
    assert!(out[..list.len()] == list && out[list.len()..].iter().all(|x| *x == LENT));
    due
}

/// Lengths that are lent where so many bytes are needed: none, one too few, just enough, more.
fn lengths(needed: usize) -> [usize; 5] {
    [0, needed.saturating_sub(1), needed, needed + 1, needed + 999]
}

#[test]
fn what_is_written_reads_back() {
    let mut random = Random(0x0601);
    let sizes = (0..300).chain([255, 256, 257, 1000, 4095, 4096]);
    for n in sizes {
        let changes = some_changes(n, false, &mut random);
        let (list, mut message, mut back) = (list_of(&changes), vec![LENT; MESSAGE], vec![LENT; ROW * n]);
        assert_eq!(write_message(&list, &mut message), Answer::new(0, 0));
        message.truncate(u32::from_be_bytes(message[..4].try_into().unwrap()) as usize);
        assert_eq!(message, message_of(&changes));
        assert_eq!(read_message(&message, &mut back), Answer::new(0, 0));
        assert_eq!(back, list);
    }
    assert_eq!(message_of(&[Change::Add((0, 0), 0); 4096]).len(), MESSAGE);
    assert_eq!(message_of(&[]), [0, 0, 0, 7, 1, 0, 0]);
}

#[test]
fn numbers_of_the_writer_in_their_order() {
    let mut random = Random(0x0602);
    let mut seen = [0; 10];
    for round in 0..3000 {
        let n = [random.below(6), random.below(40), 4096 + random.below(2)][if round % 200 == 0 { 2 } else { round % 2 }];
        let mut list = list_of(&some_changes(n, round % 3 == 0, &mut random));
        match random.below(5) {
            0 if n > 0 => {
                let row = ROW * random.below(n);
                list[row] = [0, 1, 2, 3, 255][random.below(5)];
            }
            1 if n > 0 => {
                let row = ROW * random.below(n);
                list[row + 9 + random.below(4)] = random.below(2) as u8;
            }
            2 => list.truncate(list.len().saturating_sub(1 + random.below(13))),
            _ => {}
        }
        let needed = changes_in(&list).map_or(HEAD, |c| message_of(&c).len());
        for lent in lengths(needed) {
            seen[writes(&list, lent).number as usize] += 1;
        }
    }
    assert!([0, 2, 8, 9].iter().all(|n| seen[*n] > 100), "{seen:?}");
}

/// Messages with a byte changed, taken out or put in: the reader and the one written apart agree, and what is read is written again byte for byte.
#[test]
fn a_message_has_one_spelling() {
    let mut random = Random(0x0603);
    let mut seen = [0; 10];
    for round in 0..6000 {
        let n = if round % 500 == 0 { 4096 } else { random.below(12) };
        let mut message = message_of(&some_changes(n, round % 4 == 0, &mut random));
        for _ in 0..random.below(3) {
            let at = [random.below(message.len()), random.below(HEAD)][random.below(2)].min(message.len() - 1);
            match random.below(4) {
                0 => message[at] ^= 1 << random.below(8),
                1 => message[at] = random.below(4) as u8,
                2 if message.len() > 1 => {
                    message.remove(at);
                }
                _ => message.insert(at, random.below(3) as u8),
            }
            if random.below(2) == 0 && message.len() >= 4 {
                let len = message.len() as u32;
                message[..4].copy_from_slice(&len.to_be_bytes());
            }
        }
        let needed = changes_of(&message).map_or(0, |c| ROW * c.len());
        for lent in lengths(needed) {
            let a = reads(&message, lent);
            seen[a.number as usize] += 1;
            if a.number == 0 {
                let (mut list, mut again) = (vec![0; needed], vec![0; message.len()]);
                assert_eq!(read_message(&message, &mut list), a);
                assert_eq!((write_message(&list, &mut again), &again), (a, &message));
            }
        }
    }
    assert!([0, 2, 8, 9].iter().all(|n| seen[*n] > 100), "{seen:?}");
}

#[test]
fn what_is_no_message() {
    let message = message_of(&[Change::Add((5, 6), 7), Change::Withdraw((5, 7))]);
    assert_eq!(reads(&message, 26), Answer::new(0, 0));
    for at in [0, 1, 2, 3, 4, 5, 6, 7, 20] {
        let mut other = message.clone();
        other[at] ^= 4;
        assert_eq!(reads(&other, 100_000), Answer::new(8, 0), "byte {at}");
    }
    for n in 0..message.len() {
        assert_eq!(reads(&message[..n], 100), Answer::new(8, 0), "cut after {n}");
    }
    for behind in 1..20 {
        let more: Vec<u8> = message.iter().copied().chain(std::iter::repeat_n(2, behind)).collect();
        assert_eq!(reads(&more, 100), Answer::new(8, 0), "{behind} bytes behind it");
    }
    // one more than a message may have, each in order
    let many = vec![Change::Withdraw((0, 0)); 4097];
    assert_eq!(reads(&message_of(&many), ROW * 4097), Answer::new(8, 0));
    assert_eq!(writes(&list_of(&many), MESSAGE), Answer::new(8, 0));
    assert_eq!(writes(&list_of(&many[1..]), 7 + 9 * 4096), Answer::new(0, 0));
    // 8 before 2 and 9, 2 before 9, and of those outside the first
    let mut list = list_of(&[Change::Add((0, 0), 0), Change::Withdraw((1_000_001, 0)), Change::Add((-1_000_001, 0), 0)]);
    assert_eq!(writes(&list, 7 + 13 + 9 + 13), Answer::new(9, 1));
    assert_eq!(writes(&list, 7 + 13 + 9 + 12), Answer::new(2, 0));
    list[2 * ROW] = 0;
    assert_eq!(writes(&list, 0), Answer::new(8, 0));
    let outside = message_of(&[Change::Add((0, 0), 0), Change::Withdraw((1_000_001, 0)), Change::Add((-1_000_001, 0), 0)]);
    assert_eq!((reads(&outside, 39), reads(&outside, 38)), (Answer::new(9, 1), Answer::new(2, 0)));
}

/// The plain list of these spots, with a table of so many bytes.
fn live_of(spots: &BTreeMap<Key, u32>, table: usize) -> Live {
    let mut live = Live::new();
    for (k, t) in spots {
        assert_eq!(live.apply(Change::Add(*k, *t), table, table), 0);
    }
    live
}

/// A table, and what the plain list says of it.
struct Card {
    table: Vec<u8>,
    live: Live,
}

impl Card {
    fn empty(blocks: usize) -> Card {
        let mut table = vec![3; BLOCK * blocks];
        assert_eq!(format(&mut table), Answer::new(0, 0));
        Card { table, live: Live::new() }
    }

    /// A sound table in some arrangement, with changes waiting.
    fn some(blocks: usize, n: usize, random: &mut Random) -> Card {
        let made = make(blocks, &some_spots(n, 1 + random.below(50_000), 1 + random.below(30_000), random), true, random);
        let live = live_of(&made.live, made.table.len());
        Card { table: made.table, live }
    }

    fn capacity(&self) -> usize {
        16 * (self.table.len() / BLOCK - 1)
    }

    /// Changes one after another, some of them of one place and rank, some withdrawals of nothing.
    fn changes(&self, kind: usize, n: usize, fill: usize, random: &mut Random) -> Vec<Change> {
        let mut after = self.live.clone();
        let mut out: Vec<Change> = vec![];
        for step in 0..n {
            let mut c = next(KINDS[kind % 4], step, &after, self.capacity(), fill, random);
            if !out.is_empty() && random.below(4) == 0 {
                let k = out[random.below(out.len())].key();
                c = if random.below(2) == 0 { Change::Add(k, random.draw() as u32) } else { Change::Withdraw(k) };
            }
            after.apply(c, self.table.len(), self.table.len());
            out.push(c);
        }
        out
    }

    /// New spots, as many as there is room for.
    fn fill(&mut self, random: &mut Random) {
        let room = self.capacity() - self.live.spots.len();
        let more: Vec<Change> = (0..room).map(|_| Change::Add(anywhere(random), 7)).collect();
        let work = self.table.len();
        assert_eq!(self.apply(&message_of(&more), work), Answer::new(0, 0));
    }

    /// Applies the message: the answer is the plain list's, and every byte of table and work area is as it has to be.
    #[track_caller]
    fn apply(&mut self, message: &[u8], work: usize) -> Answer {
        let changes = changes_of(message);
        let was = self.table.clone();
        let exact = figure(&was) == self.live.spots.len();
        let mut area = vec![LENT; work];
        let a = apply(&mut self.table, message, &mut area);
        let n = self.table.len();
        assert_eq!(a, answer(self.live.apply_message(changes.as_deref(), n, work)), "{} changes", changes.map_or(0, |c| c.len()));
        let zeros = if a.number == 0 { n } else { 0 };
        assert!(area[..zeros].iter().all(|x| *x == 0) && area[zeros..].iter().all(|x| *x == LENT));
        if a.number != 0 {
            assert!(self.table == was);
            return a;
        }
        assert_eq!(sound(&self.table).as_ref(), Ok(&self.live.spots));
        assert_eq!((check(&self.table), count(&self.table)), (Answer::new(0, 1), Answer::new(0, self.live.spots.len() as u32)));
        assert!(!exact || figure(&self.table) == self.live.spots.len(), "the figure in block 0");
        a
    }
}

#[test]
fn applied_one_after_another() {
    let mut random = Random(0x0604);
    let mut seen = [0; 10];
    for round in 0..160 {
        let blocks = [9, 10, 12, 32, 100][round % 5];
        let mut card = Card::empty(blocks);
        let fill = [card.capacity() / 3, card.capacity(), card.capacity() + 20][round % 3];
        for step in 0..24 {
            let n = [random.below(4), random.below(60), random.below(400)][step % 3];
            let mut changes = card.changes(round / 3, n, fill, &mut random);
            if random.below(12) == 0 && n > 0 {
                let at = random.below(n);
                changes[at] = changes[at].at(outside(&mut random));
            }
            let work = card.table.len() + random.below(2) * 777;
            seen[card.apply(&message_of(&changes), work).number as usize] += 1;
        }
    }
    assert!([0, 4, 9].iter().all(|n| seen[*n] > 50), "{seen:?}");
}

/// Tables in arrangements that no history need bring about; the figure in block 0 is exact, or above the number of live spots.
#[test]
fn any_sound_table() {
    let mut random = Random(0x0605);
    let mut seen = [0; 10];
    for round in 0..120 {
        let blocks = [12, 32, 100, 300][round % 4];
        let capacity = 16 * (blocks - 1);
        let n = [capacity, random.below(capacity), capacity - random.below(9)][round % 3];
        let mut card = Card::some(blocks, n, &mut random);
        for step in 0..6 {
            if random.below(2) == 0 {
                let room = capacity - card.live.spots.len();
                let above = card.live.spots.len() + [room, random.below(room + 1)][random.below(2)];
                card.table[8..12].copy_from_slice(&(above as u32).to_be_bytes());
                assert!(sound(&card.table).is_ok());
            }
            let n = [1, 2, 1 + random.below(50), 1 + random.below(4096)][(round + step) % 4];
            let fill = card.live.spots.len() + 1;
            let changes = card.changes(round, n, fill, &mut random);
            let len = card.table.len();
            seen[card.apply(&message_of(&changes), len).number as usize] += 1;
        }
    }
    assert!(seen[0] > 100 && seen[4] > 50, "{seen:?}");
}

#[test]
fn largest_table_and_longest_message() {
    let mut random = Random(0x0606);
    let mut card = Card::empty(4096);
    let len = card.table.len();
    let mut spots: Vec<Key> = (0..65_520 + 1).map(|i| (i % 1000, i / 1000 - 30)).collect();
    for i in (1..spots.len()).rev() {
        spots.swap(i, random.below(i + 1));
    }
    let one_more = spots.pop().unwrap();
    for part in spots.chunks(4096) {
        let changes: Vec<Change> = part.iter().map(|k| Change::Add(*k, random.draw() as u32)).collect();
        assert_eq!(card.apply(&message_of(&changes), len), Answer::new(0, 0));
    }
    assert_eq!(card.live.spots.len(), 65_520);
    // as many replaced as a message holds, then one more
    let again: Vec<Change> = spots[..4096].iter().map(|k| Change::Add(*k, 7)).collect();
    assert_eq!(card.apply(&message_of(&again), len), Answer::new(0, 0));
    let mut over = again.clone();
    over[4095] = Change::Add(one_more, 7);
    assert_eq!(card.apply(&message_of(&over), len), Answer::new(4, 4095));
    let out: Vec<Change> = spots[..4096].iter().map(|k| Change::Withdraw(*k)).collect();
    assert_eq!(card.apply(&message_of(&out), len), Answer::new(0, 0));
    assert_eq!(card.apply(&message_of(&over), len), Answer::new(0, 0));
}

/// The changes are judged one after another, not by what is left in the end.
#[test]
fn full_on_the_way() {
    let mut random = Random(0x0607);
    for blocks in [9, 32] {
        let capacity = 16 * (blocks as i32 - 1);
        let fresh = |live: i32| {
            let mut card = Card::empty(blocks);
            let all: Vec<Change> = (0..live).map(|i| Change::Add((i, 0), 0)).collect();
            let len = card.table.len();
            assert_eq!(card.apply(&message_of(&all), len), Answer::new(0, 0));
            card
        };
        let new = |i: i32| Change::Add((i, 9), 1);
        let gone = |i: i32| Change::Withdraw((i, 0));
        let cases: [(i32, Vec<Change>, (u32, u32)); 9] = [
            (capacity, vec![new(0), gone(0)], (4, 0)),
            (capacity, vec![gone(0), new(0)], (0, 0)),
            (capacity - 1, vec![new(0), new(1), gone(0), gone(1)], (4, 1)),
            (capacity - 1, vec![gone(0), new(0), new(1)], (0, 0)),
            // a withdrawal of nothing makes no room, a second of the same neither
            (capacity, vec![Change::Withdraw((5, 5)), new(0)], (4, 1)),
            (capacity, vec![gone(0), gone(0), new(0), new(1)], (4, 3)),
            // one that is replaced takes no room, also where the message brought it
            (capacity, vec![Change::Add((3, 0), 8), Change::Add((3, 0), 9)], (0, 0)),
            (capacity - 1, vec![new(0), new(0), new(0), gone(1), new(1)], (0, 0)),
            // withdrawn earlier in the message, it counts as new again
            (capacity, vec![gone(0), new(0), Change::Add((0, 0), 7)], (4, 2)),
        ];
        for (live, changes, due) in cases {
            let mut card = fresh(live);
            let len = card.table.len();
            assert_eq!(card.apply(&message_of(&changes), len), answer(due), "{changes:?}");
            // the figure above the number of live spots doesn't make a table full
            let mut card = fresh(live);
            card.table[8..12].copy_from_slice(&(capacity as u32).to_be_bytes());
            assert_eq!(card.apply(&message_of(&changes), len + random.below(3)), answer(due), "{changes:?}");
        }
    }
}

#[test]
fn numbers_of_applying_in_their_order() {
    let mut card = Card::empty(9);
    let len = card.table.len();
    let all: Vec<Change> = (0..128).map(|i| Change::Add((i, 0), 0)).collect();
    assert_eq!(card.apply(&message_of(&all), len), Answer::new(0, 0));
    let full = [Change::Add((0, 0), 7), Change::Add((0, 1), 7), Change::Withdraw((2_000_000, 1)), Change::Add((-2_000_000, 1), 7)];
    let [in_order, outside] = [&full[..2], &full].map(message_of);
    let mut no_message = outside.clone();
    no_message[4] = 2;
    let broken = vec![9; len];
    let gives = |table: &[u8], work: usize, message: &[u8], due: (u32, u32)| {
        let (mut own, mut area) = (table.to_vec(), vec![LENT; work]);
        assert_eq!(apply(&mut own, message, &mut area), answer(due), "{} bytes of table, {work} of work area", table.len());
        let zeros = if due.0 == 3 { table.len() } else { 0 };
        assert!(own == table && area[..zeros].iter().all(|x| *x == 0) && area[zeros..].iter().all(|x| *x == LENT));
    };
    for table in [&card.table, &broken] {
        for short in [0, 1, len - 1, len - BLOCK] {
            gives(&table[..short], 0, &no_message, (1, 0));
        }
        gives(table, len - 1, &no_message, (2, 0));
        gives(table, 0, &outside, (2, 0));
        gives(table, len, &no_message, (8, 0));
        gives(table, len, &[], (8, 0));
        gives(table, len, &outside[..outside.len() - 1], (8, 0));
        // 9 before a 4 that stands earlier in the message, and before 3
        gives(table, len, &outside, (9, 2));
    }
    gives(&vec![0; 4097 * BLOCK], 0, &no_message, (1, 0));
    gives(&broken, len + 5, &in_order, (3, 0));
    gives(&broken, len, &message_of(&[]), (3, 0));
    gives(&card.table, len + 5, &in_order, (4, 1));
    // no changes: accepted, and only the work area is written
    let was = card.table.clone();
    assert_eq!(card.apply(&message_of(&[]), len + 5), Answer::new(0, 0));
    assert!(card.table == was);
}

/// A message of one change leaves the table as Add and Withdraw do, byte for byte.
#[test]
fn one_change() {
    let mut random = Random(0x0608);
    let mut seen = [0; 10];
    for round in 0..40 {
        let blocks = [9, 12, 32, 300][round % 4];
        let n = [16 * (blocks - 1), random.below(16 * (blocks - 1))][round % 2];
        let mut card = Card::some(blocks, n, &mut random);
        for _ in 0..40 {
            let c = card.changes(round / 4, 1, card.capacity(), &mut random)[0];
            let (mut other, mut work) = (card.table.clone(), vec![LENT; card.table.len()]);
            let single = match c {
                Change::Add(k, t) => add(&mut other, spot(k, t), &mut work),
                Change::Withdraw(k) => withdraw(&mut other, k.0, k.1, &mut work),
            };
            let len = card.table.len();
            assert_eq!(card.apply(&message_of(&[c]), len), single);
            assert!(card.table == other);
            seen[single.number as usize] += 1;
        }
    }
    assert!(seen[0] > 100 && seen[4] > 5, "{seen:?}");
}

/// A table with bytes changed: the figure or the map of blocks in use, which no node shows, so that it may be laid out anew, sound or not; block 0, or anywhere.
fn damaged(table: &[u8], kind: usize, random: &mut Random) -> Vec<u8> {
    let mut out = table.to_vec();
    if kind == 0 {
        let lower = random.below(figure(table) + 1) as u32;
        out[8..12].copy_from_slice(&lower.to_be_bytes());
        return out;
    }
    for _ in 0..1 + random.below(3) {
        let at = [12 + random.below(2), random.below(BLOCK), random.below(table.len())][kind - 1];
        out[at] ^= 1 << random.below(8);
    }
    out
}

/// Several changes on any table: laid out anew with a walk of everything, or 3; 4 on a sound table alone. Where additions find no room beside the figure, an unsound one is refused.
fn several(table: &[u8], changes: &[Change]) -> (Answer, BTreeMap<Key, u32>) {
    let three = (Answer::new(3, 0), BTreeMap::new());
    let Some(mut spots) = layable(table) else { return three };
    if sound(table).is_ok() {
        let mut live = live_of(&spots, table.len());
        return (answer(live.apply_message(Some(changes), table.len(), table.len())), live.spots);
    }
    let adds = changes.iter().filter(|c| matches!(c, Change::Add(..))).count();
    if figure(table) + adds > capacity(table) {
        return three;
    }
    for c in changes {
        match c {
            Change::Add(k, t) => spots.insert(*k, *t),
            Change::Withdraw(k) => spots.remove(k),
        };
    }
    if spots.len() > capacity(table) {
        return three;
    }
    (Answer::new(0, 0), spots)
}

/// What is promised on every table of the right length: 3 by block 0; no changes change nothing; one goes the way of Add and Withdraw.
#[track_caller]
fn is_promised(was: &[u8], changes: &[Change], a: Answer, table: &[u8]) {
    if !header_ok(was) {
        assert_eq!(a, Answer::new(3, 0));
        return;
    }
    match changes {
        [] => assert!(a == Answer::new(0, 0) && table == was),
        [c] => {
            let found = looked_up(was, c.key());
            assert!(found.is_some() || a.number == 3);
            let is_full = || found == Some(None) && walked(was).is_some_and(|all| all.len() >= capacity(was));
            assert!(a.number != 4 || is_full());
        }
        _ => {
            let (due, spots) = several(was, changes);
            assert_eq!(a, due);
            assert!(a.number != 0 || sound(table).is_ok_and(|after| after == spots));
        }
    }
}

/// Tables with bytes changed: the number and the spots are those promised; a refusal leaves the table, and the work area is as lent after 4 and zero after 3.
#[test]
fn damaged_tables() {
    let mut random = Random(0x0609);
    let mut seen = [[0; 5]; 3];
    let mut mended = 0;
    for round in 0..8000 {
        let mut card = Card::some(12, 150, &mut random);
        if round % 2 == 0 {
            card.fill(&mut random);
        }
        let mut table = damaged(&card.table, round / 2 % 4, &mut random);
        let n = [0, 1, 2 + random.below(30), 2 + random.below(4)][round / 8 % 4];
        let changes = card.changes(round / 32, n, 176, &mut random);
        let (was, wise) = (table.clone(), sound(&table));
        let mut work = vec![LENT; table.len() + 3];
        let a = apply(&mut table, &message_of(&changes), &mut work);
        seen[n.min(2)][a.number as usize] += 1;
        mended += usize::from(n > 1 && wise.is_err() && a.number == 0);
        assert!([0, 3, 4].contains(&a.number) && (a.number == 4 || a.detail == 0) && (a.number == 0 || table == was));
        let lent = if a.number == 4 { LENT } else { 0 };
        assert!(work[..was.len()].iter().all(|x| *x == lent) && work[was.len()..] == [LENT; 3]);
        is_promised(&was, &changes, a, &table);
        if let Ok(spots) = wise {
            let mut live = live_of(&spots, was.len());
            assert_eq!(a, answer(live.apply_message(Some(&changes), was.len(), was.len())));
            assert_eq!(sound(&table).as_ref(), Ok(&live.spots));
        }
    }
    assert!(seen.iter().all(|s| s[0] > 100 && s[3] > 100) && seen[1][4] > 5 && seen[2][4] > 5 && mended > 100, "{seen:?}, {mended}");
}
