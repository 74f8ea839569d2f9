//! SQLite in memory: primary key (place, rank) without rowid, an index on (rank falling, place), rows fetched.

use crate::flat::put;
use spot_reference::{stretches, Key};
use std::ffi::{c_char, c_int, c_void, CStr, CString};
use std::ptr::null_mut;

extern "C" {
    fn sqlite3_open(name: *const c_char, db: *mut *mut c_void) -> c_int;
    fn sqlite3_exec(db: *mut c_void, sql: *const c_char, f: *mut c_void, arg: *mut c_void, err: *mut *mut c_char) -> c_int;
    fn sqlite3_prepare_v2(db: *mut c_void, sql: *const c_char, len: c_int, st: *mut *mut c_void, tail: *mut *const c_char) -> c_int;
    fn sqlite3_bind_int64(st: *mut c_void, i: c_int, v: i64) -> c_int;
    fn sqlite3_step(st: *mut c_void) -> c_int;
    fn sqlite3_reset(st: *mut c_void) -> c_int;
    fn sqlite3_column_int64(st: *mut c_void, i: c_int) -> i64;
    fn sqlite3_finalize(st: *mut c_void) -> c_int;
    fn sqlite3_close(db: *mut c_void) -> c_int;
    fn sqlite3_libversion() -> *const c_char;
}

const ROW: c_int = 100;
const DONE: c_int = 101;

pub fn version() -> String {
    // SAFETY: SQLite hands out a constant text.
    unsafe { CStr::from_ptr(sqlite3_libversion()) }.to_string_lossy().into_owned()
}

pub struct Sqlite {
    db: *mut c_void,
    report: *mut c_void,
    top: *mut c_void,
    /// The plus keeps it at the primary key, as the other one is: by rank it would read all.
    top_past_door: *mut c_void,
    add: *mut c_void,
    withdraw: *mut c_void,
    count: *mut c_void,
}

// SAFETY, for all of this file: handles and statements live as long as the value, which isn't shared, and every text ends with a zero.
impl Sqlite {
    pub fn new<'a>(spots: impl Iterator<Item = (&'a Key, &'a u32)>) -> Sqlite {
        let mut db = null_mut();
        assert_eq!(unsafe { sqlite3_open(c":memory:".as_ptr(), &mut db) }, 0);
        let [report, top, top_past_door, add, withdraw, count] = [null_mut(); 6];
        let mut s = Sqlite { db, report, top, top_past_door, add, withdraw, count };
        s.run("CREATE TABLE spots(place INTEGER, rank INTEGER, track INTEGER, PRIMARY KEY(place, rank)) WITHOUT ROWID");
        s.run("CREATE INDEX by_rank ON spots(rank DESC, place)");
        s.report = s.prepare("SELECT place, rank, track FROM spots WHERE place BETWEEN ?1 AND ?2 AND rank >= ?3 ORDER BY place, rank");
        s.top = s.prepare("SELECT place, rank, track FROM spots WHERE place BETWEEN ?1 AND ?2 ORDER BY rank DESC, place ASC LIMIT ?3");
        s.top_past_door =
            s.prepare("SELECT place, rank, track FROM spots WHERE place >= ?1 OR place <= ?2 ORDER BY +rank DESC, place ASC LIMIT ?3");
        s.add = s.prepare("INSERT OR REPLACE INTO spots VALUES(?1, ?2, ?3)");
        s.withdraw = s.prepare("DELETE FROM spots WHERE place = ?1 AND rank = ?2");
        s.count = s.prepare("SELECT count(*) FROM spots");
        s.begin();
        for (k, t) in spots {
            s.add(*k, *t);
        }
        s.commit();
        s
    }

    pub fn begin(&self) {
        self.run("BEGIN");
    }

    pub fn commit(&self) {
        self.run("COMMIT");
    }

    fn run(&self, sql: &str) {
        let sql = CString::new(sql).unwrap();
        assert_eq!(unsafe { sqlite3_exec(self.db, sql.as_ptr(), null_mut(), null_mut(), null_mut()) }, 0);
    }

    fn prepare(&self, sql: &str) -> *mut c_void {
        let (sql, mut st) = (CString::new(sql).unwrap(), null_mut());
        assert_eq!(unsafe { sqlite3_prepare_v2(self.db, sql.as_ptr(), -1, &mut st, null_mut()) }, 0);
        st
    }

    fn bind(st: *mut c_void, values: &[i64]) {
        for (i, v) in values.iter().enumerate() {
            assert_eq!(unsafe { sqlite3_bind_int64(st, i as c_int + 1, *v) }, 0);
        }
    }

    fn fetch(st: *mut c_void, values: [i64; 3], out: &mut [u8]) -> usize {
        Sqlite::bind(st, &values);
        let mut n = 0;
        loop {
            let step = unsafe { sqlite3_step(st) };
            if step != ROW {
                assert_eq!((step, unsafe { sqlite3_reset(st) }), (DONE, 0));
                return n;
            }
            let column = |i: c_int| unsafe { sqlite3_column_int64(st, i) };
            put(&mut out[12 * n..], (column(0) as i32, column(1) as i32), column(2) as u32);
            n += 1;
        }
    }

    fn change(st: *mut c_void, values: &[i64]) {
        Sqlite::bind(st, values);
        assert_eq!((unsafe { sqlite3_step(st) }, unsafe { sqlite3_reset(st) }), (DONE, 0));
    }

    pub fn report(&self, x1: i32, x2: i32, y: i32, out: &mut [u8]) -> usize {
        let mut n = 0;
        for (first, last) in stretches(x1, x2) {
            n += Sqlite::fetch(self.report, [first.into(), last.into(), y.into()], &mut out[12 * n..]);
        }
        n
    }

    pub fn top(&self, x1: i32, x2: i32, k: u32, out: &mut [u8]) -> usize {
        let st = if x1 <= x2 { self.top } else { self.top_past_door };
        Sqlite::fetch(st, [x1.into(), x2.into(), k.into()], out)
    }

    pub fn count(&self) -> usize {
        assert_eq!(unsafe { sqlite3_step(self.count) }, ROW);
        let n = unsafe { sqlite3_column_int64(self.count, 0) };
        assert_eq!(unsafe { sqlite3_reset(self.count) }, 0);
        n as usize
    }

    pub fn add(&self, k: Key, track: u32) {
        Sqlite::change(self.add, &[k.0.into(), k.1.into(), track.into()]);
    }

    pub fn withdraw(&self, k: Key) {
        Sqlite::change(self.withdraw, &[k.0.into(), k.1.into()]);
    }
}

impl Drop for Sqlite {
    fn drop(&mut self) {
        for st in [self.report, self.top, self.top_past_door, self.add, self.withdraw, self.count] {
            unsafe { sqlite3_finalize(st) };
        }
        unsafe { sqlite3_close(self.db) };
    }
}
