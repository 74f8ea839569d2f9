//! `CARD.sha256`: the digest of the card that spotcard wrote, in the form that sha256sum knows. While a card is being replaced there are two lines, the old
//! card's and the new one's, so that a crash leaves no false alarm.

use crate::words;
use anyhow::{Context, Result};
use sha2::{Digest as _, Sha256};
use std::ffi::OsStr;
use std::fs;
use std::io;
use std::path::Path;

/// Whether the card's bytes are those of which `CARD.sha256` has the digest.
#[derive(Clone, Copy, Debug, PartialEq, Eq)]
pub enum Digest {
    Same,
    Differs,
    None,
}

/// The digests that stand in the file; none if there is no file.
pub fn read(path: &Path) -> Result<Option<Vec<String>>> {
    let text = match fs::read(path) {
        Ok(text) => text,
        Err(e) if e.kind() == io::ErrorKind::NotFound => return Ok(None),
        Err(e) => return Err(e).with_context(|| format!("{} can't be read", words::name(path))),
    };
    // A backslash says that the name has signs that are written with one.
    let digest = |line: &[u8]| Some(String::from_utf8_lossy(line.strip_prefix(b"\\").unwrap_or(line).get(..64)?).into_owned());
    Ok(Some(text.split(|b| *b == b'\n').filter_map(digest).collect()))
}

/// The text of the file, with the name as sha256sum writes it.
pub fn text(digests: &[String], name: &OsStr) -> Vec<u8> {
    let name = name.as_encoded_bytes();
    let escaped: Vec<u8> = name
        .iter()
        .flat_map(|b| match b {
            b'\n' => b"\\n".to_vec(),
            b'\r' => b"\\r".to_vec(),
            b'\\' => b"\\\\".to_vec(),
            other => vec![*other],
        })
        .collect();
    let mark: &[u8] = if escaped == name { b"" } else { b"\\" };
    digests.iter().flat_map(|digest| [mark, digest.as_bytes(), b"  ", &escaped, b"\n"].concat()).collect()
}

pub fn compare(bytes: &[u8], path: &Path) -> Result<Digest> {
    Ok(match read(path)? {
        None => Digest::None,
        Some(digests) if digests.contains(&of(bytes)) => Digest::Same,
        Some(_) => Digest::Differs,
    })
}

pub fn of(bytes: &[u8]) -> String {
    Sha256::digest(bytes).iter().map(|b| format!("{b:02x}")).collect()
}

#[cfg(test)]
mod tests {
    #[test]
    fn the_standards_examples() {
        let rows: [(&[u8], &str); 2] = [
            (b"", "e3b0c44298fc1c149afbf4c8996fb92427ae41e4649b934ca495991b7852b855"),
            (b"abc", "ba7816bf8f01cfea414140de5dae2223b00361a396177a9cb410ff61f20015ad"),
        ];
        for (bytes, digest) in rows {
            assert_eq!(super::of(bytes), digest);
        }
    }
}
