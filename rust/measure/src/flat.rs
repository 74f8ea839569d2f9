//! The file that guides read today: spots of 12 bytes, sorted by place. Read through, or searched by halving.

use spot_reference::{stretches, top_order, Key};
use std::collections::{BTreeMap, BTreeSet};

const WIDTH: usize = 12;
/// A block of the card.
const BLOCK: usize = 2048;

fn word(s: &[u8], at: usize) -> i32 {
    i32::from_be_bytes(s[at..at + 4].try_into().unwrap())
}

pub fn put(s: &mut [u8], k: Key, track: u32) {
    s[..4].copy_from_slice(&k.0.to_be_bytes());
    s[4..8].copy_from_slice(&k.1.to_be_bytes());
    s[8..12].copy_from_slice(&track.to_be_bytes());
}

pub fn make<'a>(spots: impl Iterator<Item = (&'a Key, &'a u32)>) -> Vec<u8> {
    let mut out = vec![];
    for (k, t) in spots {
        let mut s = [0; WIDTH];
        put(&mut s, *k, *t);
        out.extend(s);
    }
    out
}

/// The number of spots in front of this identity.
pub fn halve(file: &[u8], k: Key) -> usize {
    let (mut lo, mut hi) = (0, file.len() / WIDTH);
    while lo < hi {
        let mid = (lo + hi) / 2;
        if (word(file, WIDTH * mid), word(file, WIDTH * mid + 4)) < k {
            lo = mid + 1;
        } else {
            hi = mid;
        }
    }
    lo
}

fn part(file: &[u8], x1: i32, x2: i32) -> &[u8] {
    let from = halve(file, (x1, i32::MIN));
    let mut to = halve(file, (x2, i32::MAX));
    // the one of the very last identity
    to += (file.len() > WIDTH * to && word(file, WIDTH * to) == x2) as usize;
    &file[WIDTH * from.min(to)..WIDTH * to]
}

/// Counted on from x1, the place comes no later than x2; past the door as well.
fn is_placed(place: i32, x1: i32, x2: i32) -> bool {
    place.wrapping_sub(x1) as u32 <= x2.wrapping_sub(x1) as u32
}

/// The spots of the range with at least this rank; the number of them. Past the door they are turned to begin at x1.
pub fn report(file: &[u8], x1: i32, x2: i32, y: i32, out: &mut [u8]) -> usize {
    let mut n = 0;
    for s in file.chunks_exact(WIDTH) {
        if is_placed(word(s, 0), x1, x2) && word(s, 4) >= y {
            out[WIDTH * n..WIDTH * (n + 1)].copy_from_slice(s);
            n += 1;
        }
    }
    if x1 > x2 {
        let before = halve(&out[..WIDTH * n], (x1, i32::MIN));
        out[..WIDTH * n].rotate_left(WIDTH * before);
    }
    n
}

pub fn report_halved(file: &[u8], x1: i32, x2: i32, y: i32, out: &mut [u8]) -> usize {
    let mut n = 0;
    for (first, last) in stretches(x1, x2) {
        n += report(part(file, first, last), first, last, y, &mut out[WIDTH * n..]);
    }
    n
}

/// The identity and the bytes of the track.
fn fields(s: &[u8]) -> (Key, &[u8]) {
    ((word(s, 0), word(s, 4)), &s[8..])
}

/// The first k of these spots in the order of Top's answers: cut at the k-th, sorted.
fn best(mut kept: Vec<(Key, &[u8])>, k: usize, out: &mut [u8]) -> usize {
    if k < kept.len() {
        kept.select_nth_unstable_by_key(k, |s| top_order(s.0));
        kept.truncate(k);
    }
    kept.sort_unstable_by_key(|s| top_order(s.0));
    for (i, ((place, rank), track)) in kept.iter().enumerate() {
        let s = &mut out[WIDTH * i..WIDTH * (i + 1)];
        s[..4].copy_from_slice(&place.to_be_bytes());
        s[4..8].copy_from_slice(&rank.to_be_bytes());
        s[8..].copy_from_slice(track);
    }
    kept.len()
}

pub fn top(file: &[u8], x1: i32, x2: i32, k: usize, out: &mut [u8]) -> usize {
    let wanted = file.chunks_exact(WIDTH).filter(|s| is_placed(word(s, 0), x1, x2));
    best(wanted.map(fields).collect(), k, out)
}

pub fn top_halved(file: &[u8], x1: i32, x2: i32, k: usize, out: &mut [u8]) -> usize {
    let mut kept = vec![];
    for (first, last) in stretches(x1, x2) {
        kept.extend(part(file, first, last).chunks_exact(WIDTH).map(fields));
    }
    best(kept, k, out)
}

/// The blocks that reading the file through takes.
pub fn blocks(file: &[u8]) -> usize {
    file.len().div_ceil(BLOCK)
}

/// The number of blocks that a search by halving and the range take.
pub fn blocks_halved(file: &[u8], x1: i32, x2: i32) -> usize {
    read_halved(file, x1, x2).len()
}

/// These blocks.
pub fn read_halved(file: &[u8], x1: i32, x2: i32) -> BTreeSet<usize> {
    let mut read = BTreeSet::new();
    for k in [(x1, i32::MIN), (x2, i32::MAX)] {
        let (mut lo, mut hi) = (0, file.len() / WIDTH);
        while lo < hi {
            let mid = (lo + hi) / 2;
            read.insert(WIDTH * mid / BLOCK);
            if (word(file, WIDTH * mid), word(file, WIDTH * mid + 4)) < k {
                lo = mid + 1;
            } else {
                hi = mid;
            }
        }
    }
    for (first, last) in stretches(x1, x2) {
        let inside = part(file, first, last);
        let from = inside.as_ptr() as usize - file.as_ptr() as usize;
        read.extend(from / BLOCK..(from + inside.len()).div_ceil(BLOCK));
    }
    read
}

/// The file cut again with one spot more, or with that spot replaced.
pub fn add_anew(file: &[u8], k: Key, track: u32) -> Vec<u8> {
    let mut out = Vec::with_capacity(file.len() + WIDTH);
    let (mut s, mut put_in) = ([0; WIDTH], false);
    put(&mut s, k, track);
    for old in file.chunks_exact(WIDTH) {
        let at = (word(old, 0), word(old, 4));
        if !put_in && k <= at {
            out.extend(s);
            put_in = true;
        }
        if at != k {
            out.extend(old);
        }
    }
    if !put_in {
        out.extend(s);
    }
    out
}

/// The file cut again without one spot.
pub fn withdraw_anew(file: &[u8], k: Key) -> Vec<u8> {
    let mut out = Vec::with_capacity(file.len());
    for old in file.chunks_exact(WIDTH) {
        if (word(old, 0), word(old, 4)) != k {
            out.extend(old);
        }
    }
    out
}

/// The file cut again with the changes made: the track of each identity, or none for one that goes. They are sorted, then merged in one pass.
pub fn apply_anew(file: &[u8], changes: &[(Key, Option<u32>)]) -> Vec<u8> {
    let mut changes = changes.iter().copied().collect::<BTreeMap<Key, Option<u32>>>().into_iter().peekable();
    let mut out = Vec::with_capacity(file.len() + WIDTH * changes.len());
    let push = |out: &mut Vec<u8>, (k, track): (Key, Option<u32>)| {
        if let Some(t) = track {
            out.resize(out.len() + WIDTH, 0);
            let at = out.len() - WIDTH;
            put(&mut out[at..], k, t);
        }
    };
    for row in file.chunks_exact(WIDTH) {
        let k = (word(row, 0), word(row, 4));
        while let Some(c) = changes.next_if(|c| c.0 < k) {
            push(&mut out, c);
        }
        match changes.next_if(|c| c.0 == k) {
            Some(c) => push(&mut out, c),
            None => out.extend_from_slice(row),
        }
    }
    changes.for_each(|c| push(&mut out, c));
    out
}

/// Found by halving, the spots behind moved.
pub fn add_moved(file: &mut Vec<u8>, k: Key, track: u32) {
    let at = WIDTH * halve(file, k);
    if file.len() <= at || (word(file, at), word(file, at + 4)) != k {
        let end = file.len();
        file.resize(end + WIDTH, 0);
        file.copy_within(at..end, at + WIDTH);
    }
    put(&mut file[at..], k, track);
}

pub fn withdraw_moved(file: &mut Vec<u8>, k: Key) {
    let at = WIDTH * halve(file, k);
    if at < file.len() && (word(file, at), word(file, at + 4)) == k {
        file.copy_within(at + WIDTH.., at);
        file.truncate(file.len() - WIDTH);
    }
}
