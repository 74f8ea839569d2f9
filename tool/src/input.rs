//! Files that are read whole, of whatever kind: up to a length, and without waiting for ever at a pipe to which nobody writes.

use crate::problem::{file, refused};
use crate::words;
use anyhow::{Context, Result};
use std::fs::{self, File};
use std::io::{self, Read};
use std::os::unix::fs::FileTypeExt;
use std::path::{Path, PathBuf};
use std::sync::mpsc::{sync_channel, RecvTimeoutError, SyncSender};
use std::time::Duration;

/// Far more than any sheet or file of changes for the largest card, and little enough to read.
const MOST_BYTES: usize = 64 << 20;
/// How long a named pipe may have no writer, and how long its writer may be silent.
const OPENING: Duration = Duration::from_secs(3);
const SILENCE: Duration = Duration::from_secs(60);

/// `-`
pub fn is_standard(path: &Path) -> bool {
    path.as_os_str() == "-"
}

/// The path as it is spoken of.
pub fn name(path: &Path) -> String {
    if is_standard(path) {
        "standard input".into()
    } else {
        words::name(path)
    }
}

/// The bytes of a file, a device or a pipe, or of standard input where the path is `-`.
pub fn read(path: &Path) -> Result<Vec<u8>> {
    let name = name(path);
    let words = || format!("{name} can't be read");
    let bytes = if is_standard(path) {
        limited(io::stdin().lock()).with_context(words)?
    } else if fs::metadata(path).with_context(words)?.file_type().is_fifo() {
        from_pipe(path, &name)?
    } else {
        limited(File::open(path).with_context(words)?).with_context(words)?
    };
    if bytes.len() > MOST_BYTES {
        let most = words::number(MOST_BYTES as i128);
        return Err(refused(format!(
            "{name} has more than {most} bytes, and no more are read. It is no sheet and no file of changes for a card."
        )));
    }
    Ok(bytes)
}

/// One byte more than is allowed tells that there is more.
fn limited(source: impl Read) -> io::Result<Vec<u8>> {
    let mut out = vec![];
    source.take(MOST_BYTES as u64 + 1).read_to_end(&mut out)?;
    Ok(out)
}

/// Opening a pipe that has no writer waits for one: another thread does that, and is left behind where none comes.
fn from_pipe(path: &Path, name: &str) -> Result<Vec<u8>> {
    let (send, pieces) = sync_channel(4);
    let own = path.to_path_buf();
    std::thread::spawn(move || hand_on(own, &send));
    let (mut out, mut patience) = (vec![], OPENING);
    loop {
        match pieces.recv_timeout(patience) {
            Ok(piece) => out.extend(piece.with_context(|| format!("{name} can't be read"))?),
            Err(RecvTimeoutError::Disconnected) => return Ok(out),
            Err(RecvTimeoutError::Timeout) => {
                let seconds = words::count(patience.as_secs() as usize, "second");
                return Err(file(format!("{name} is a pipe, and nothing came out of it for {seconds}. Nothing was done.")));
            }
        }
        if out.len() > MOST_BYTES {
            return Ok(out);
        }
        patience = SILENCE;
    }
}

/// An empty piece says that the pipe is open.
fn hand_on(path: PathBuf, pieces: &SyncSender<io::Result<Vec<u8>>>) {
    let mut pipe = match File::open(path) {
        Ok(pipe) => pipe,
        Err(e) => {
            let _ = pieces.send(Err(e));
            return;
        }
    };
    let mut is_wanted = pieces.send(Ok(vec![])).is_ok();
    while is_wanted {
        let mut piece = vec![0; 1 << 16];
        match pipe.read(&mut piece) {
            Ok(0) => return,
            Ok(n) => {
                piece.truncate(n);
                is_wanted = pieces.send(Ok(piece)).is_ok();
            }
            Err(e) if e.kind() == io::ErrorKind::Interrupted => {}
            Err(e) => {
                let _ = pieces.send(Err(e));
                return;
            }
        }
    }
}
