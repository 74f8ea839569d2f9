//! A full node validated, loaded, changed by one insert and stored again, beside the same in plain Rust, in one run. Prints times and the ratio; tests nothing.

#[allow(dead_code)]
#[path = "../rust/reference/src/layout.rs"]
mod layout;
#[allow(dead_code)]
#[path = "../rust/reference/src/plain.rs"]
mod plain;
#[allow(dead_code)]
#[path = "../rust/reference/src/range.rs"]
mod range;

use layout::Key;
use range::stretches;
use std::hint::black_box;
use std::time::Instant;

extern "C" {
    fn perf_change(t: *mut u8, len: usize, level: usize, key: u64, track: u32) -> bool;
}

fn put_key(s: &mut [u8], place: i32, rank: i32) {
    s[..4].copy_from_slice(&place.to_be_bytes());
    s[4..8].copy_from_slice(&rank.to_be_bytes());
}

fn full_node() -> Vec<u8> {
    let mut t = vec![0u8; 2048 * 16];
    let s = &mut t[2048..4096];
    s[..8].copy_from_slice(&[(1896u16 >> 8) as u8, 1896u16 as u8, 1, 1, 64, 64, 16, 8]);
    for i in 0..8 {
        let e = &mut s[8 + 28 * i..36 + 28 * i];
        e[1] = 2 + i as u8;
        e[2] = 40;
        let i = i as i32;
        if i > 0 {
            put_key(&mut e[4..], 1000 * i, 0);
        }
        put_key(&mut e[12..], 1000 * i + 5, 300 + i);
        put_key(&mut e[20..], 1000 * i + 7, 100 + i);
    }
    let mut at = 8 + 28 * 8;
    for (shift, rank) in [(0, 1000), (1, 500)] {
        for i in 0..64 {
            put_key(&mut s[at..], 100 * i + shift, rank + i);
            at += 12;
        }
    }
    for i in 0..16 {
        put_key(&mut s[at..], 100 * i + 2, 400 + i);
        at += 8;
    }
    t
}

fn time(mut f: impl FnMut()) -> f64 {
    let mut best = f64::MAX;
    for _ in 0..15 {
        let start = Instant::now();
        for _ in 0..4000 {
            f();
        }
        best = best.min(start.elapsed().as_nanos() as f64 / 4000.0);
    }
    best
}

fn main() {
    let key = ((3001u64 + (1 << 31)) << 32) | (530 + (1 << 31));
    let (mut a, mut b) = (full_node(), full_node());
    for track in 0..50 {
        assert!(unsafe { perf_change(a.as_mut_ptr(), a.len(), 1, key, track) });
        assert!(plain::change(&mut b, 1, key, track));
        assert!(a == b);
    }
    let ours = time(|| unsafe {
        black_box(perf_change(a.as_mut_ptr(), a.len(), 1, black_box(key), 7));
    });
    let other = time(|| {
        black_box(plain::change(&mut b, 1, black_box(key), 7));
    });
    println!("change a node   {ours:8.0} ns   plain Rust {other:8.0} ns   ratio {:.2}", ours / other);
}
