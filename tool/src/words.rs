//! Numbers and counts as people read them.

pub use spot_reference::words::{bytes, number};

use std::path::Path;

/// A file's name in one line: signs that no line shows are written as in \n or \xE4, and the whole in quotation marks then.
pub fn name(path: &Path) -> String {
    let mut out = String::new();
    for chunk in path.as_os_str().as_encoded_bytes().utf8_chunks() {
        for c in chunk.valid().chars() {
            if c.is_control() {
                out.extend(c.escape_default());
            } else {
                out.push(c);
            }
        }
        out.extend(chunk.invalid().iter().map(|b| format!("\\x{b:02X}")));
    }
    if path.to_str() == Some(&out) {
        out
    } else {
        format!("\"{out}\"")
    }
}

/// "1 spot", "2 spots".
pub fn count(n: usize, thing: &str) -> String {
    let plural = if n == 1 { "" } else { "s" };
    format!("{} {thing}{plural}", number(n as i128))
}

#[cfg(test)]
mod tests {
    use super::*;

    #[test]
    fn one_thing_or_several() {
        assert_eq!(count(1, "spot"), "1 spot");
        assert_eq!(count(1024, "spot"), "1,024 spots");
    }

    #[test]
    fn names_stand_in_one_line() {
        use std::os::unix::ffi::OsStrExt;
        let rows: [(&[u8], &str); 4] =
            [(b"a b.card", "a b.card"), ("K\u{E4}se".as_bytes(), "K\u{E4}se"), (b"a\nb", "\"a\\nb\""), (b"K\xE4se", "\"K\\xE4se\"")];
        for (bytes, shown) in rows {
            assert_eq!(name(Path::new(std::ffi::OsStr::from_bytes(bytes))), shown);
        }
    }
}
