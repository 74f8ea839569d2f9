//! Files that are written whole or not at all: sheets and pictures.

use crate::card::{folder, real_path, TEMPORARY};
use crate::kind::Kind;
use crate::problem::{file, refused};
use crate::{picture, words};
use anyhow::{Context, Result};
use std::ffi::OsString;
use std::fs::{self, File, OpenOptions, Permissions};
use std::io::{self, Read, Write};
use std::os::unix::fs::{FileTypeExt, OpenOptionsExt, PermissionsExt};
use std::path::Path;

/// To open a pipe without waiting for a reader; the system's number on Linux.
const O_NONBLOCK: i32 = 0o4000;

/// More than any file has that spotcard makes.
const MOST_BYTES: u64 = 64 << 20;

/// The bytes of a file, of a very large one the first.
pub fn start_of(path: &Path) -> io::Result<Vec<u8>> {
    let mut out = vec![];
    File::open(path)?.take(MOST_BYTES).read_to_end(&mut out)?;
    Ok(out)
}

/// Writes the file. An existing one is kept, unless it is of the same kind and may be replaced.
pub fn write(path: &Path, bytes: &[u8], kind: Kind, force: bool) -> Result<()> {
    let name = words::name(path);
    let words = || format!("{name} can't be written");
    if let Ok(about) = fs::metadata(path) {
        if about.is_dir() {
            return Err(file(format!("{name} is a folder.")));
        }
        if about.file_type().is_fifo() && OpenOptions::new().write(true).custom_flags(O_NONBLOCK).open(path).is_err() {
            return Err(file(format!("{name} is a pipe, and nobody reads from it. Nothing was done.")));
        }
        if !about.is_file() {
            let mut device = OpenOptions::new().write(true).open(path).with_context(words)?;
            return device.write_all(bytes).with_context(words);
        }
        let old = start_of(path).with_context(words)?;
        let is_own_picture = kind == Kind::Picture && picture::is_ours(&old);
        if let Some(words) = kind.kept(&name, &old, force || is_own_picture) {
            return Err(refused(words));
        }
    }
    let real = real_path(path).with_context(words)?;
    let mut prefix = OsString::from(".");
    prefix.push(real.file_name().unwrap_or_default());
    let mut file = tempfile::Builder::new().prefix(&prefix).suffix(TEMPORARY).tempfile_in(folder(&real)).with_context(words)?;
    file.write_all(bytes).with_context(words)?;
    file.as_file().set_permissions(permissions(&real)).with_context(words)?;
    file.as_file().sync_all().with_context(words)?;
    file.persist(&real).map_err(|e| e.error).with_context(words)?;
    Ok(())
}

/// Those of the old file; for a new one those that the user's settings give to new files. A temporary file has none for others.
pub fn permissions(path: &Path) -> Permissions {
    let mask = fs::read_to_string("/proc/self/status").ok().and_then(|status| umask(&status));
    match fs::metadata(path) {
        Ok(old) => old.permissions(),
        Err(_) => Permissions::from_mode(0o666 & !mask.unwrap_or(0o077)),
    }
}

fn umask(status: &str) -> Option<u32> {
    let mask = status.lines().find_map(|line| line.strip_prefix("Umask:"))?;
    u32::from_str_radix(mask.trim(), 8).ok()
}
