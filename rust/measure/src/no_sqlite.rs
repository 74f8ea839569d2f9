//! Stands in where SQLite is not installed; nothing of it is ever made.

use spot_reference::Key;

pub enum Sqlite {}

impl Sqlite {
    pub fn report(&self, _: i32, _: i32, _: i32, _: &mut [u8]) -> usize {
        match *self {}
    }

    pub fn top(&self, _: i32, _: i32, _: u32, _: &mut [u8]) -> usize {
        match *self {}
    }

    pub fn count(&self) -> usize {
        match *self {}
    }

    pub fn begin(&self) {
        match *self {}
    }

    pub fn commit(&self) {
        match *self {}
    }

    pub fn add(&self, _: Key, _: u32) {
        match *self {}
    }

    pub fn withdraw(&self, _: Key) {
        match *self {}
    }
}
