//! Tables in three states, and the calls that are timed on them.

use crate::clock::{now, race, Runs};
use crate::flat;
use crate::row::{self, Row};
use crate::sqlite::Sqlite;
use spot_reference::{holds, make, plain, Key, Random};
use spot_table::{
    add, blocks_read, check, count, format, rebuild, report, report_many, top, top_within, withdraw, Places, Range, Spot, BLOCK, MAP,
    MOST_RANGES, SPOT,
};
use std::collections::{BTreeMap, BTreeSet};
use std::hint::black_box;

/// Laid out anew; grown from nothing by additions in no order; with changes waiting in every inner node.
pub const STATES: [&str; 3] = ["fresh", "grown", "waiting"];

/// Places lie from minus to plus this.
pub const HALF: i32 = 1 << 19;

pub type Contenders<'a> = Vec<Option<Box<dyn FnMut() + 'a>>>;

/// A contender of a race.
pub fn timed<'a, T>(mut f: impl FnMut() -> T + 'a) -> Option<Box<dyn FnMut() + 'a>> {
    Some(Box::new(move || {
        black_box(f());
    }))
}

pub struct Setting {
    blocks: usize,
    state: &'static str,
    table: Vec<u8>,
    live: BTreeMap<Key, u32>,
    file: Vec<u8>,
    sqlite: Option<Sqlite>,
}

pub fn spot(k: Key, track: u32) -> Spot {
    Spot { place: k.0, rank: k.1, track }
}

/// Spots at random places and ranks, about as many ranks as the largest table has spots.
pub fn anywhere(n: usize, random: &mut Random) -> BTreeMap<Key, u32> {
    let mut out = BTreeMap::new();
    while out.len() < n {
        let place = random.below(2 * HALF as usize) as i32 - HALF;
        out.insert((place, random.below(1 << 16) as i32), random.draw() as u32);
    }
    out
}

pub fn shuffled<T>(mut list: Vec<T>, random: &mut Random) -> Vec<T> {
    for i in (1..list.len()).rev() {
        list.swap(i, random.below(i + 1));
    }
    list
}

pub fn ones(map: &[u8]) -> f64 {
    blocks_read(map).detail.into()
}

/// Ranges all along the route at equal distances, each 1/n of it.
fn spread(n: i32) -> Vec<Range> {
    let step = 2 * HALF / MOST_RANGES as i32;
    (0..MOST_RANGES as i32)
        .map(|i| -HALF + step / 2 + i * step)
        .map(|x| Range { x1: x - HALF / n, x2: x + HALF / n, y: i32::MIN })
        .collect()
}

/// The single reports of the ranges, one behind the other; the number of spots.
fn one_by_one(ranges: &[Range], out: &mut [u8], mut report: impl FnMut(&Range, &mut [u8]) -> usize) -> usize {
    ranges.iter().fold(0, |n, r| n + report(r, &mut out[SPOT * n..]))
}

/// The blocks that differ.
pub fn changed(a: &[u8], b: &[u8]) -> usize {
    a.chunks(BLOCK).zip(b.chunks(BLOCK)).filter(|(x, y)| x != y).count()
}

impl Setting {
    pub fn new(blocks: usize, state: &'static str, random: &mut Random) -> Setting {
        let spots = anywhere(16 * (blocks - 1), random);
        let mut work = vec![0; BLOCK * blocks];
        let (mut table, mut live) = (vec![0; BLOCK * blocks], spots.clone());
        if state == "grown" {
            assert_eq!(format(&mut table).number, 0);
            for (k, t) in shuffled(spots.iter().collect(), random) {
                assert_eq!(add(&mut table, spot(*k, *t), &mut work).number, 0);
            }
        } else {
            let made = make(blocks, &spots, state == "waiting", random);
            (table, live) = (made.table, made.live);
        }
        if state == "fresh" {
            assert_eq!(rebuild(&mut table, &mut work).number, 0);
        }
        assert_eq!((check(&table).detail, count(&table).detail as usize), (1, live.len()));
        let file = flat::make(live.iter());
        #[cfg(sqlite)]
        let sqlite = Some(Sqlite::new(live.iter()));
        #[cfg(not(sqlite))]
        let sqlite = None;
        Setting { blocks, state, table, live, file, sqlite }
    }

    fn row(&self, call: String, spots: usize, runs: Vec<Option<Runs>>, touched: [Option<f64>; 3]) -> Row {
        Row { blocks: self.blocks, state: self.state, call, spots, runs, touched }
    }

    pub fn rows(&self, rounds: usize, quick: bool, random: &mut Random) -> Vec<Row> {
        let mut out = vec![];
        let mut ranks: Vec<i32> = self.live.keys().map(|k| k.1).collect();
        ranks.sort_unstable();
        let best = ranks[ranks.len() - 20];
        let all = (i32::MIN, i32::MAX);
        let part = |n: i32| (-HALF / n, HALF / n);
        let past_door = |n: i32| (HALF - HALF / n, HALF / n - HALF);
        let mut reports = vec![
            ("narrow, 0.1 %", part(1000), i32::MIN),
            ("wide, 1 %", part(100), i32::MIN),
            ("1 % past the door", past_door(100), i32::MIN),
            ("a tenth", part(10), i32::MIN),
            ("a tenth past the door", past_door(10), i32::MIN),
            ("everything", all, i32::MIN),
        ];
        reports.push(("~20 best of all", all, best));
        for (name, places, y) in reports {
            out.push(self.report(rounds, name, places, y));
        }
        for (name, ranges) in [(row::NARROW, spread(1000)), (row::WIDE, spread(100))] {
            out.push(self.report_many(rounds, name, &ranges));
        }
        for (name, places) in [("1 %", part(100)), ("10 %", part(10)), ("10 % past the door", past_door(10)), ("all", all)] {
            let held = self.live.keys().filter(|k| holds(places.0, places.1, k.0)).count();
            for (k, text) in [(10, "10"), (1000, "1,000"), (10_000, "10,000"), (u32::MAX, "all")] {
                if (k as usize) < held || k == u32::MAX && !(quick && name != "all") {
                    out.push(self.top(rounds, &format!("{text} of {name}"), places, k));
                }
            }
        }
        for (name, places, k) in [(row::TEN, part(10), 10), (row::THOUSAND, all, 1000)] {
            for (allowance, text) in row::ALLOWANCES.into_iter().filter(|_| k < ranks.len()) {
                out.push(self.top_within(rounds, format!("{name}, {text}"), places, k as u32, allowance));
            }
        }
        out.push(self.count(rounds));
        out.push(self.check(rounds));
        out.extend(self.updates(rounds, random));
        out.push(self.rebuild(rounds, random));
        out
    }

    fn report(&self, rounds: usize, name: &str, (x1, x2): (i32, i32), y: i32) -> Row {
        let room = SPOT * self.live.len();
        let (mut map, mut seen) = ([0; MAP], [0; MAP]);
        let mut outs = vec![vec![0u8; room]; 5];
        let n = report(&self.table, Range { x1, x2, y }, &mut outs[0], &mut map).result().unwrap() as usize;
        let mut counts = vec![flat::report(&self.file, x1, x2, y, &mut outs[1]), flat::report_halved(&self.file, x1, x2, y, &mut outs[2])];
        counts.extend(self.sqlite.iter().map(|s| s.report(x1, x2, y, &mut outs[3])));
        counts.extend(plain::report(&self.table, x1, x2, y, &mut outs[4], &mut seen));
        assert!(counts.iter().all(|c| *c == n) && map == seen);
        let same = |i: usize| outs[i][..SPOT * n] == outs[0][..SPOT * n];
        assert!(same(1) && same(2) && (self.sqlite.is_none() || same(3)) && same(4));
        let [a, b, c, d, e] = &mut outs[..] else { unreachable!() };
        let (marked, read) = (ones(&map), [flat::blocks(&self.file) as f64, flat::blocks_halved(&self.file, x1, x2) as f64]);
        let contenders: Contenders = vec![
            timed(|| report(black_box(&self.table), Range { x1, x2, y }, a, &mut map)),
            timed(|| flat::report(black_box(&self.file), x1, x2, y, b)),
            timed(|| flat::report_halved(black_box(&self.file), x1, x2, y, c)),
            self.sqlite.as_ref().and_then(|s| timed(move || s.report(x1, x2, y, d))),
            timed(|| plain::report(black_box(&self.table), x1, x2, y, e, &mut seen)),
        ];
        self.row(format!("report {name}"), n, race(rounds, contenders), [Some(marked), Some(read[0]), Some(read[1])])
    }

    /// 64 ranges in one call; each of the others, and the library's own Report, answers them one by one.
    fn report_many(&self, rounds: usize, name: &str, ranges: &[Range]) -> Row {
        let (mut map, mut seen, mut own, mut counts) = ([0; MAP], [0; MAP], [0; MAP], [0; MOST_RANGES]);
        let held = |r: &Range| self.live.keys().filter(|k| holds(r.x1, r.x2, k.0)).count();
        let room = SPOT * ranges.iter().map(held).sum::<usize>();
        let mut outs = vec![vec![0u8; room]; 6];
        let n = report_many(&self.table, ranges, &mut counts, &mut outs[0], &mut map).result().unwrap() as usize;
        let [a, b, c, d, e, f] = &mut outs[..] else { unreachable!() };
        let file = |out: &mut [u8]| one_by_one(ranges, out, |r, o| flat::report(black_box(&self.file), r.x1, r.x2, r.y, o));
        let halved = |out: &mut [u8]| one_by_one(ranges, out, |r, o| flat::report_halved(black_box(&self.file), r.x1, r.x2, r.y, o));
        let sqlite = |s: &Sqlite, out: &mut [u8]| one_by_one(ranges, out, |r, o| s.report(r.x1, r.x2, r.y, o));
        let mut plain =
            |out: &mut [u8]| one_by_one(ranges, out, |r, o| plain::report(black_box(&self.table), r.x1, r.x2, r.y, o, &mut seen).unwrap());
        let mut single = |out: &mut [u8]| one_by_one(ranges, out, |r, o| report(black_box(&self.table), *r, o, &mut own).detail as usize);
        let found = [file(b), halved(c), self.sqlite.as_ref().map_or(n, |s| sqlite(s, d)), plain(e), single(f)];
        assert!(found == [n; 5] && a == b && a == c && (self.sqlite.is_none() || a == d) && a == e && a == f);
        let read: BTreeSet<usize> = ranges.iter().flat_map(|r| flat::read_halved(&self.file, r.x1, r.x2)).collect();
        let touched = [ones(&map), flat::blocks(&self.file) as f64, read.len() as f64];
        let contenders: Contenders = vec![
            timed(|| report_many(black_box(&self.table), ranges, &mut counts, a, &mut map)),
            timed(|| file(b)),
            timed(|| halved(c)),
            self.sqlite.as_ref().and_then(|s| timed(move || sqlite(s, d))),
            timed(|| plain(e)),
            timed(|| single(f)),
        ];
        self.row(name.into(), n, race(rounds, contenders), touched.map(Some))
    }

    fn top(&self, rounds: usize, name: &str, (x1, x2): (i32, i32), k: u32) -> Row {
        let room = SPOT * self.live.len();
        let mut map = [0; MAP];
        let mut outs = vec![vec![0u8; room]; 4];
        let n = top(&self.table, Places { x1, x2 }, k, &mut outs[0], &mut map).result().unwrap() as usize;
        let most = k as usize;
        let mut counts = vec![flat::top(&self.file, x1, x2, most, &mut outs[1]), flat::top_halved(&self.file, x1, x2, most, &mut outs[2])];
        counts.extend(self.sqlite.iter().map(|s| s.top(x1, x2, k, &mut outs[3])));
        assert!(counts.iter().all(|c| *c == n));
        let same = |i: usize| outs[i][..SPOT * n] == outs[0][..SPOT * n];
        assert!(same(1) && same(2) && (self.sqlite.is_none() || same(3)));
        let [a, b, c, d] = &mut outs[..] else { unreachable!() };
        let (marked, read) = (ones(&map), [flat::blocks(&self.file) as f64, flat::blocks_halved(&self.file, x1, x2) as f64]);
        let contenders: Contenders = vec![
            timed(|| top(black_box(&self.table), Places { x1, x2 }, k, a, &mut map)),
            timed(|| flat::top(black_box(&self.file), x1, x2, most, b)),
            timed(|| flat::top_halved(black_box(&self.file), x1, x2, most, c)),
            self.sqlite.as_ref().and_then(|s| timed(move || s.top(x1, x2, k, d))),
            None,
        ];
        self.row(format!("top {name}"), n, race(rounds, contenders), [Some(marked), Some(read[0]), Some(read[1])])
    }

    /// What is certain of a Top after so many node blocks, beside the library's own Top.
    fn top_within(&self, rounds: usize, name: String, (x1, x2): (i32, i32), k: u32, allowance: u32) -> Row {
        let (mut map, mut own) = ([0; MAP], [0; MAP]);
        let [mut a, mut b] = [0; 2].map(|_| vec![0u8; SPOT * k as usize]);
        let n = top_within(&self.table, Places { x1, x2 }, k, allowance, &mut a, &mut map).0.result().unwrap() as usize;
        let all = top(&self.table, Places { x1, x2 }, k, &mut b, &mut own).result().unwrap() as usize;
        assert!(a[..SPOT * n] == b[..SPOT * n] && (allowance < u32::MAX || n == all && map == own));
        let marked = ones(&map);
        let contenders: Contenders = vec![
            timed(|| top_within(black_box(&self.table), Places { x1, x2 }, k, allowance, &mut a, &mut map)),
            None,
            None,
            None,
            None,
            timed(|| top(black_box(&self.table), Places { x1, x2 }, k, &mut b, &mut own)),
        ];
        self.row(name, n, race(rounds, contenders), [Some(marked), None, None])
    }

    fn count(&self, rounds: usize) -> Row {
        let (n, mut out, mut map) = (self.live.len(), vec![0; SPOT * self.live.len()], [0; MAP]);
        assert_eq!(report(&self.table, Range::ALL, &mut out, &mut map).number, 0);
        assert!(plain::count_all(&self.table) == Some(n) && self.sqlite.as_ref().map_or(n, |s| s.count()) == n);
        let contenders: Contenders = vec![
            timed(|| count(black_box(&self.table))),
            None,
            None,
            self.sqlite.as_ref().and_then(|s| timed(move || s.count())),
            timed(|| plain::count_all(black_box(&self.table))),
        ];
        self.row("count".into(), n, race(rounds, contenders), [Some(ones(&map)), None, None])
    }

    fn check(&self, rounds: usize) -> Row {
        let contenders: Contenders = vec![timed(|| check(black_box(&self.table))), None, None, None, None];
        self.row("check".into(), self.live.len(), race(rounds, contenders), [Some(ones(&self.table[12..524])), None, None])
    }

    /// Withdraw, then Add: in each round a batch of live spots goes out of a copy of the table and a batch of new ones comes in.
    fn updates(&self, rounds: usize, random: &mut Random) -> Vec<Row> {
        let m = 256.min(self.live.len() / 8);
        let keys: Vec<Key> = self.live.keys().copied().collect();
        let mut runs = vec![vec![Some(vec![]); 5]; 2];
        let mut touched = [[0.0; 3]; 2];
        let mut work = vec![0; self.table.len()];
        for round in 0..rounds + 1 {
            let old: Vec<Key> = shuffled(keys.clone(), random)[..m].to_vec();
            let new: Vec<Key> = anywhere(m, random).into_keys().filter(|k| !self.live.contains_key(k)).collect();
            let new = shuffled(new, random);
            if round == rounds {
                touched = self.written(&old, &new, &mut work);
                break;
            }
            let (a, b) = self.batches(&old, &new, &mut work);
            for (into, from) in runs.iter_mut().zip([a, b]) {
                for (r, ns) in into.iter_mut().zip(from) {
                    r.as_mut().unwrap().push(ns);
                }
            }
        }
        let mut rows = vec![];
        for (call, (mut runs, touched)) in ["withdraw", "add"].into_iter().zip(runs.into_iter().zip(touched)) {
            if self.sqlite.is_none() {
                runs[3] = None;
            }
            rows.push(self.row(call.into(), self.live.len(), runs, touched.map(Some)));
        }
        rows
    }

    /// The time of a call in a batch of withdrawals and in one of additions, by contender; the last one zeroes a work area.
    fn batches(&self, old: &[Key], new: &[Key], work: &mut [u8]) -> ([f64; 5], [f64; 5]) {
        fn each<T: Copy>(list: &[T], mut f: impl FnMut(T)) -> f64 {
            let start = now();
            for x in list {
                f(*x);
            }
            (now() - start) / list.len() as f64
        }
        let (mut table, mut file, mut cut) = (self.table.clone(), self.file.clone(), self.file.clone());
        let sqlite = self.sqlite.as_ref();
        let a = [
            each(old, |k| assert_eq!(withdraw(&mut table, k.0, k.1, work).number, 0)),
            each(old, |k| cut = flat::withdraw_anew(&cut, k)),
            each(old, |k| flat::withdraw_moved(&mut file, k)),
            each(old, |k| sqlite.into_iter().for_each(|s| s.withdraw(k))),
            each(&old[..old.len().min(64)], |_| black_box(&mut *work).fill(0)),
        ];
        let b = [
            each(new, |k| assert_eq!(add(&mut table, spot(k, 7), work).number, 0)),
            each(new, |k| cut = flat::add_anew(&cut, k, 7)),
            each(new, |k| flat::add_moved(&mut file, k, 7)),
            each(new, |k| sqlite.into_iter().for_each(|s| s.add(k, 7))),
            each(&new[..new.len().min(64)], |_| black_box(&mut *work).fill(0)),
        ];
        assert!(cut == file && count(&table).detail as usize == file.len() / SPOT);
        if let Some(s) = sqlite {
            new.iter().for_each(|k| s.withdraw(*k));
            old.iter().for_each(|k| s.add(*k, self.live[k]));
        }
        (a, b)
    }

    /// The blocks that a withdrawal and an addition write, on average: the library, the file cut again, the file from the spot on.
    fn written(&self, old: &[Key], new: &[Key], work: &mut [u8]) -> [[f64; 3]; 2] {
        let (mut table, mut file) = (self.table.clone(), self.file.clone());
        let mut before = table.clone();
        let mut sums = [[0.0; 3]; 2];
        for (i, k) in old.iter().map(|k| (0, k)).chain(new.iter().map(|k| (1, k))) {
            let at = SPOT * flat::halve(&file, *k);
            let a = if i == 0 { withdraw(&mut table, k.0, k.1, work) } else { add(&mut table, spot(*k, 7), work) };
            assert_eq!(a.number, 0);
            if i == 0 {
                flat::withdraw_moved(&mut file, *k);
            } else {
                flat::add_moved(&mut file, *k, 7);
            }
            sums[i][0] += changed(&before, &table) as f64;
            sums[i][1] += flat::blocks(&file) as f64;
            sums[i][2] += (flat::blocks(&file) - at / BLOCK) as f64;
            before.copy_from_slice(&table);
        }
        let mean = |s: [f64; 3], n: usize| s.map(|x| (10.0 * x / n as f64).round() / 10.0);
        [mean(sums[0], old.len()), mean(sums[1], new.len())]
    }

    fn rebuild(&self, rounds: usize, random: &mut Random) -> Row {
        let unsorted = shuffled(self.live.iter().map(|(k, t)| (*k, *t)).collect(), random);
        let mut work = vec![0; self.table.len()];
        let mut runs = vec![Some(vec![]), None, None, None, Some(vec![])];
        let mut used = 0.0;
        for _ in 0..rounds {
            let mut table = self.table.clone();
            let start = now();
            assert_eq!(rebuild(black_box(&mut table), &mut work).number, 0);
            runs[0].as_mut().unwrap().push(now() - start);
            used = ones(&table[12..524]);
            let mut list = unsorted.clone();
            let start = now();
            list.sort_unstable();
            black_box(black_box(&list).clone());
            runs[4].as_mut().unwrap().push(now() - start);
        }
        self.row("rebuild".into(), self.live.len(), runs, [Some(used), None, None])
    }
}
