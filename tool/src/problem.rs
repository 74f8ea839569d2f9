//! What can go wrong, in plain words, and the exit code of each.

use std::io;

pub const REFUSED: u8 = 1;
pub const FILE: u8 = 3;

#[derive(Debug, thiserror::Error)]
pub enum Problem {
    /// The card or the sheet does not allow it. Nothing was changed.
    #[error("{0}")]
    Refused(String),
    /// The same, with a line for each thing that is wrong.
    #[error("{summary}")]
    List { lines: Vec<String>, summary: String },
    /// A question was answered with no (not sound, not the same); the answer is printed already.
    #[error("no")]
    No,
    /// A file or a lock is in the way.
    #[error("{0}")]
    File(String),
}

/// An error that ends with exit code 1.
pub fn refused(words: impl Into<String>) -> anyhow::Error {
    Problem::Refused(words.into()).into()
}

/// An error that ends with exit code 3.
pub fn file(words: impl Into<String>) -> anyhow::Error {
    Problem::File(words.into()).into()
}

/// Prints the error and gives the exit code.
pub fn tell(error: &anyhow::Error) -> u8 {
    if closed_pipe(error) {
        return 0;
    }
    match error.downcast_ref::<Problem>() {
        Some(Problem::No) => REFUSED,
        Some(Problem::Refused(words)) => {
            print(words);
            REFUSED
        }
        Some(Problem::List { lines, summary }) => {
            lines.iter().for_each(|line| print_line(line));
            print(summary);
            REFUSED
        }
        _ => {
            print(&chain(error));
            if is_refusal(error) {
                REFUSED
            } else {
                FILE
            }
        }
    }
}

/// Whether the library turned a call down.
fn is_refusal(error: &anyhow::Error) -> bool {
    error.chain().any(|e| e.is::<crate::store::Refusal>())
}

/// To standard error.
pub fn print(words: &str) {
    print_line(&format!("spotcard: {words}"));
}

fn print_line(line: &str) {
    use io::Write;
    // Nobody may be listening there.
    let _ = writeln!(io::stderr(), "{line}");
}

fn closed_pipe(error: &anyhow::Error) -> bool {
    let is_pipe = |e: &io::Error| e.kind() == io::ErrorKind::BrokenPipe;
    error.chain().any(|e| e.downcast_ref::<io::Error>().is_some_and(is_pipe))
}

/// "show.card can't be saved: the disk is full"
fn chain(error: &anyhow::Error) -> String {
    let part = |e: &(dyn std::error::Error + 'static)| match e.downcast_ref::<io::Error>() {
        Some(io) => plain(io),
        None => e.to_string(),
    };
    error.chain().map(part).collect::<Vec<_>>().join(": ")
}

/// The system's error for people who do not know its words.
pub fn plain(error: &io::Error) -> String {
    use io::ErrorKind::*;
    match error.kind() {
        NotFound => "there is no such file or folder".into(),
        PermissionDenied => "you have no permission to do that here".into(),
        StorageFull => "the disk is full".into(),
        QuotaExceeded => "your share of the disk is used up".into(),
        FileTooLarge => "a file may not become that large here".into(),
        ReadOnlyFilesystem => "the disk is write-protected".into(),
        IsADirectory => "it is a folder".into(),
        NotADirectory => "a part of the path is a file, not a folder".into(),
        _ => error.to_string(),
    }
}
