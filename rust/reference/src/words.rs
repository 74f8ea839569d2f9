//! Numbers, bytes and identities as people read them.

use crate::layout::{HIGHEST_PLACE, LOWEST_PLACE};
use crate::Key;
use std::ops::Range;

/// 65520 as "65,520".
pub fn number(n: impl TryInto<i128>) -> String {
    let n: i128 = n.try_into().unwrap_or(i128::MAX);
    let digits = n.unsigned_abs().to_string();
    let mut out = String::new();
    for (i, c) in digits.chars().enumerate() {
        if i > 0 && (digits.len() - i) % 3 == 0 {
            out.push(',');
        }
        out.push(c);
    }
    if n < 0 {
        out.insert(0, '-');
    }
    out
}

/// "byte 4" or "bytes 4-7".
pub fn bytes(range: &Range<usize>) -> String {
    if range.end <= range.start + 1 {
        format!("byte {}", range.start)
    } else {
        format!("bytes {}-{}", range.start, range.end - 1)
    }
}

/// "place 240 rank 7".
pub fn identity(k: Key) -> String {
    format!("place {} rank {}", k.0, k.1)
}

/// Of a place that no spot can have: "outside the limits of places, -1,000,000 to 1,000,000 cm".
pub fn outside() -> String {
    format!("outside the limits of places, {} to {} cm", number(LOWEST_PLACE), number(HIGHEST_PLACE))
}

#[cfg(test)]
mod tests {
    use super::*;

    #[test]
    fn numbers_have_commas() {
        let rows = [(0, "0"), (999, "999"), (1000, "1,000"), (65520, "65,520"), (i32::MIN, "-2,147,483,648"), (-999, "-999")];
        for (n, text) in rows {
            assert_eq!(number(n), text);
        }
    }

    #[test]
    fn limits_of_places() {
        assert_eq!(outside(), "outside the limits of places, -1,000,000 to 1,000,000 cm");
    }

    #[test]
    fn one_byte_or_several() {
        assert_eq!((bytes(&(4..5)), bytes(&(4..8))), ("byte 4".into(), "bytes 4-7".into()));
    }
}
