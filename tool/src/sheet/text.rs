//! From the bytes of a file to the text of a sheet: in the codings that spreadsheets write.

use crate::store::{is_length, is_tour};

/// What Windows-1252 has for the bytes from 0x80 to 0x9F; the others are those of Unicode.
const WINDOWS: [char; 32] = [
    '€', '\u{81}', '‚', 'ƒ', '„', '…', '†', '‡', 'ˆ', '‰', 'Š', '‹', 'Œ', '\u{8D}', 'Ž', '\u{8F}', '\u{90}', '‘', '’', '“', '”', '•', '–',
    '—', '˜', '™', 'š', '›', 'œ', '\u{9D}', 'ž', 'Ÿ',
];

/// The text of a file that looks like CSV, or what it is instead.
pub fn text_of(bytes: &[u8]) -> Result<String, String> {
    const SAVE: &str = "In the spreadsheet, save it as CSV.";
    if is_tour(bytes) {
        return Err("is a pressed tour, not a sheet. `spotcard report` and `spotcard info` read it.".into());
    }
    if is_card(bytes) {
        return Err("is a card, not a sheet. The order is: import SHEET.csv CARD. `spotcard export CARD` makes a sheet of a card.".into());
    }
    if bytes.starts_with(b"PK\x03\x04") || bytes.starts_with(b"\xD0\xCF\x11\xE0") {
        return Err(format!("is a spreadsheet file, not CSV. {SAVE}"));
    }
    let text = decoded(bytes)?;
    let what = if text.contains('\0') {
        "is not a text file."
    } else if !text.contains('\n') && text.contains('\r') {
        "ends its lines in the old Macintosh way."
    } else if text.trim().is_empty() {
        "is empty."
    } else {
        return Ok(text);
    };
    Err(format!("{what} {SAVE}"))
}

/// UTF-16 has a mark in front. What is neither that nor UTF-8 is what older spreadsheets write, Windows-1252.
fn decoded(bytes: &[u8]) -> Result<String, String> {
    let wide = match bytes {
        [0xFF, 0xFE, rest @ ..] => Some((rest, u16::from_le_bytes as fn([u8; 2]) -> u16)),
        [0xFE, 0xFF, rest @ ..] => Some((rest, u16::from_be_bytes as fn([u8; 2]) -> u16)),
        _ => None,
    };
    if let Some((rest, unit)) = wide {
        if rest.len() % 2 != 0 {
            return Err("is written in UTF-16 and has half a character at its end: it was cut short on the way. Save it again.".into());
        }
        let units: Vec<u16> = rest.chunks_exact(2).map(|two| unit([two[0], two[1]])).collect();
        return Ok(String::from_utf16_lossy(&units));
    }
    let plain = bytes.strip_prefix(b"\xEF\xBB\xBF").unwrap_or(bytes);
    match std::str::from_utf8(plain) {
        Ok(text) => Ok(text.into()),
        Err(_) => Ok(plain.iter().map(|b| if (0x80..0xA0).contains(b) { WINDOWS[*b as usize - 0x80] } else { char::from(*b) }).collect()),
    }
}

/// Whether someone named the card where another file belongs: a card begins with its own length.
pub fn is_card(bytes: &[u8]) -> bool {
    let length = bytes.len() as u64;
    is_length(length) && bytes.starts_with(&(length as u32).to_be_bytes())
}

#[cfg(test)]
mod tests {
    use super::*;

    #[test]
    fn files_that_are_no_csv_are_named() {
        let rows: [(&[u8], &str); 7] = [
            (b"PK\x03\x04abc", "spreadsheet file"),
            (b"\xFF\xFEp\0l", "half a character"),
            (b"place\0", "not a text"),
            (b"place,rank,track\r1,2,3\r", "Macintosh"),
            (b"\xFE\xFF\0p\0\r\0l", "Macintosh"),
            (b"", "empty"),
            (b" \r\n", "empty"),
        ];
        for (bytes, words) in rows {
            assert!(text_of(bytes).unwrap_err().contains(words));
        }
    }

    #[test]
    fn every_coding_gives_the_same_text() {
        let text = "Käse – 5 €\n";
        let units: Vec<u16> = "\u{FEFF}".encode_utf16().chain(text.encode_utf16()).collect();
        let rows: [Vec<u8>; 5] = [
            text.as_bytes().to_vec(),
            [b"\xEF\xBB\xBF", text.as_bytes()].concat(),
            units.iter().flat_map(|u| u.to_le_bytes()).collect(),
            units.iter().flat_map(|u| u.to_be_bytes()).collect(),
            b"K\xE4se \x96 5 \x80\n".to_vec(),
        ];
        for bytes in rows {
            assert_eq!(text_of(&bytes).unwrap(), text, "{bytes:?}");
        }
    }
}
