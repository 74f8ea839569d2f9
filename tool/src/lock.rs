//! The lock that lets one writer at a time change a card.

use crate::problem::{file, print};
use crate::words;
use anyhow::{Context, Result};
use std::fs::{self, File, OpenOptions};
use std::io;
use std::os::unix::fs::MetadataExt;
use std::path::Path;
use std::time::{Duration, Instant};

/// The lock stands in a file of its own: the card's own file is another one after each change. It stays when the lock is given back.
pub fn wait_for(name: &str, path: &Path, wait: Duration) -> Result<File> {
    let begun = Instant::now();
    let mut is_told = false;
    loop {
        let lock = open_lock(path).with_context(|| format!("{} can't be made", words::name(path)))?;
        match lock.try_lock() {
            Ok(()) if is_still_there(&lock, path) => return Ok(lock),
            Ok(()) => continue,
            Err(fs::TryLockError::WouldBlock) => {}
            Err(fs::TryLockError::Error(e)) => {
                return Err(e).with_context(|| format!("{name} can't be locked"));
            }
        }
        if begun.elapsed() >= wait {
            return Err(file(format!("another spotcard is changing {name} right now. Nothing was done; try again when it is ready.")));
        }
        if !is_told && begun.elapsed() > Duration::from_secs(1) {
            print(&format!("waiting for another spotcard that is changing {name} ..."));
            is_told = true;
        }
        std::thread::sleep(Duration::from_millis(20));
    }
}

fn open_lock(path: &Path) -> io::Result<File> {
    let made = OpenOptions::new().write(true).create(true).truncate(false).open(path);
    match made {
        // A lock that another user has made can be taken for reading.
        Err(e) if e.kind() == io::ErrorKind::PermissionDenied => File::open(path).or(Err(e)),
        other => other,
    }
}

/// Someone may have removed the lock's file in between; a lock on it would then exclude nobody.
fn is_still_there(lock: &File, path: &Path) -> bool {
    match (lock.metadata(), fs::metadata(path)) {
        (Ok(a), Ok(b)) => (a.dev(), a.ino()) == (b.dev(), b.ino()),
        _ => false,
    }
}
