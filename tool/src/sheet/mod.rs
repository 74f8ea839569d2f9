//! A sheet in CSV: columns place, rank and track by name. Every row is judged before any is used.

mod columns;
mod number;
mod text;

use crate::input;
use crate::problem::{refused, Problem};
use crate::spot::{Key, Spot};
use crate::store::{MOST_BLOCKS, SPOTS_A_BLOCK};
use crate::words;
use anyhow::Result;
use columns::Columns;
pub use columns::Names;
use csv::{ReaderBuilder, StringRecord, Terminator};
use number::Marks;
use std::collections::HashMap;
use std::path::Path;
pub use text::is_card;
use text::text_of;

/// So many wrong rows are named; of the others only the number.
pub const MOST_NAMED: usize = 20;
/// The room of the largest card.
const MOST_SPOTS: usize = SPOTS_A_BLOCK * (MOST_BLOCKS - 1);
/// The header is looked for in so many lines.
const MOST_ABOVE: usize = 20;
/// The signs that are looked for between columns.
const SEPARATORS: [u8; 3] = [b',', b';', b'\t'];

/// What a spot is called, and where it hangs.
#[derive(Clone, Debug, Default, PartialEq, Eq)]
pub struct Texts {
    pub title: String,
    pub room: String,
}

#[derive(Debug)]
pub struct Row {
    pub line: usize,
    pub spot: Spot,
    pub texts: Texts,
}

#[derive(Debug)]
pub struct Sheet {
    pub name: String,
    pub rows: Vec<Row>,
    /// Whether it has columns of titles and of rooms.
    pub has_texts: [bool; 2],
}

/// What is wrong with a line.
#[derive(Debug, PartialEq, Eq)]
pub struct Wrong {
    pub line: usize,
    pub what: String,
}

impl Wrong {
    pub fn new(line: usize, what: impl Into<String>) -> Wrong {
        let what = what.into();
        Wrong { line, what }
    }
}

/// Reads and judges the whole sheet.
pub fn read(path: &Path, names: &Names) -> Result<Sheet> {
    of(input::name(path), &input::read(path)?, names)
}

/// The sheet in these bytes.
pub fn of(name: String, bytes: &[u8], names: &Names) -> Result<Sheet> {
    let text = text_of(bytes).map_err(|what| refused(format!("{name} {what}")))?;
    match judge(&text, names) {
        Ok((rows, has_texts)) => Ok(Sheet { name, rows, has_texts }),
        Err(wrong) => Err(list_with_hint(&name, &wrong, "Correct the sheet and try again.")),
    }
}

/// The wrong lines by name and number, how many more there are, and what to do.
pub fn list_with_hint(name: &str, wrong: &[Wrong], hint: &str) -> anyhow::Error {
    let line = |w: &Wrong| format!("{name} line {}: {}", w.line, w.what);
    let mut lines: Vec<String> = wrong.iter().take(MOST_NAMED).map(line).collect();
    if wrong.len() > MOST_NAMED {
        let more = words::number((wrong.len() - MOST_NAMED) as i128);
        lines.push(format!("... and {more} more"));
    }
    let errors = words::count(wrong.len(), "error");
    let summary = format!("{errors} in {name}. Nothing was changed. {hint}");
    Problem::List { lines, summary }.into()
}

/// Whether a line near the top names the columns.
pub fn is_sheet(bytes: &[u8]) -> bool {
    let names = Names::default();
    text_of(bytes).is_ok_and(|text| {
        let separator = told_separator(&text).ok().flatten().unwrap_or_else(|| found_separator(&text, &names));
        let is_header = Records::of(&text, separator).take(MOST_ABOVE).any(|(_, record)| Columns::of(&record, &names, separator).is_ok());
        is_header
    })
}

/// The rows and which texts they have, or everything that is wrong.
fn judge(text: &str, names: &Names) -> Result<(Vec<Row>, [bool; 2]), Vec<Wrong>> {
    let told = told_separator(text).map_err(|what| vec![Wrong::new(1, what)])?;
    let separator = told.unwrap_or_else(|| found_separator(text, names));
    if let Some(wrong) = open_quote(text.as_bytes(), separator) {
        return Err(vec![wrong]);
    }
    let mut records = Records::of(text, separator).skip(told.is_some() as usize).filter(|(_, record)| !is_blank(record));
    let columns = header(&mut records, names, separator)?;
    let records: Vec<(usize, StringRecord)> = records.collect();
    let mut marks = Marks::of(separator);
    records.iter().flat_map(|(_, record)| columns.numbers(record)).for_each(|field| marks.learn(field));
    let too_many = records.get(MOST_SPOTS).map(|(line, _)| {
        let [all, most] = [records.len(), MOST_SPOTS].map(|n| words::number(n as i128));
        Wrong::new(*line, format!("the sheet has {all} rows, and no card holds more than {most} spots"))
    });
    let (mut rows, mut wrong) = (vec![], vec![]);
    let mut seen: HashMap<Key, (usize, u32)> = HashMap::new();
    for (line, record) in records {
        match columns.spot(&record, &marks) {
            Err(all) => wrong.extend(all.into_iter().map(|what| Wrong::new(line, what))),
            Ok(spot) => match seen.get(&spot.key()) {
                Some(&first) => wrong.push(Wrong::new(line, twice(spot, first))),
                None => {
                    seen.insert(spot.key(), (line, spot.track));
                    rows.push(Row { line, spot, texts: columns.texts(&record) });
                }
            },
        }
    }
    if wrong.is_empty() {
        // Whether there is room is the card's to say.
        Ok((rows, columns.texts.map(|at| at.is_some())))
    } else {
        Err(too_many.into_iter().chain(wrong).collect())
    }
}

fn is_blank(record: &StringRecord) -> bool {
    record.iter().all(|field| blank_trimmed(field).is_empty())
}

/// Without spaces of any kind around it, those too that keep a line from being broken.
pub fn blank_trimmed(field: &str) -> &str {
    field.trim_matches(|c: char| c.is_whitespace() || matches!(c, '\u{FEFF}' | '\u{200B}'))
}

/// The sign that a first line such as `sep=;` says to stand between columns.
fn told_separator(text: &str) -> Result<Option<u8>, String> {
    let first = text.lines().next().unwrap_or_default().trim_matches('"');
    let Some(sign) = first.get(..4).filter(|start| start.eq_ignore_ascii_case("sep=")).map(|_| &first[4..]) else {
        return Ok(None);
    };
    match sign.as_bytes() {
        [sign] if *sign == b'\t' || sign.is_ascii_punctuation() => Ok(Some(*sign)),
        _ => Err("behind sep= stands the one sign that parts the columns, as in sep=;".into()),
    }
}

/// The sign by which a line near the top names the columns; else the commonest one of the first line.
fn found_separator(text: &str, names: &Names) -> u8 {
    let is_header = |separator: u8| Records::of(text, separator).take(MOST_ABOVE).any(|(_, r)| Columns::of(&r, names, separator).is_ok());
    let first = text.lines().find(|line| !line.trim().is_empty()).unwrap_or_default();
    let often = |separator: &u8| first.bytes().filter(|b| b == separator).count();
    let named = SEPARATORS.into_iter().find(|separator| is_header(*separator));
    // Of equals the last would be taken, and the comma is the likeliest.
    named.or_else(|| SEPARATORS.into_iter().rev().max_by_key(often)).unwrap_or(b',')
}

/// The columns that the first line names. Title rows above it are named as such.
fn header(records: &mut impl Iterator<Item = (usize, StringRecord)>, names: &Names, separator: u8) -> Result<Columns, Vec<Wrong>> {
    let Some((line, first)) = records.next() else {
        return Err(vec![Wrong::new(1, "there is no line with the names of the columns")]);
    };
    let what = match Columns::of(&first, names, separator) {
        Ok(columns) => return Ok(columns),
        Err(what) => what,
    };
    let mut above = vec![(line, first)];
    for (line, record) in records.take(MOST_ABOVE) {
        if Columns::of(&record, names, separator).is_ok() {
            return Err(above.iter().map(|(own, row)| title_row(*own, row, line)).collect());
        }
        above.push((line, record));
    }
    Err(vec![Wrong::new(line, what)])
}

fn title_row(line: usize, row: &StringRecord, header: usize) -> Wrong {
    let text = row.iter().map(shown).find(|field| !field.is_empty()).unwrap_or_default();
    Wrong::new(line, format!("\"{text}\" is a title row; the names of the columns stand in line {header}. Delete what stands above them"))
}

fn twice(spot: Spot, (line, track): (usize, u32)) -> String {
    let here = if track == spot.track { "here too".to_string() } else { format!("here {}", spot.track) };
    format!("{} stands already in line {line} (track {track}, {here})", spot.key())
}

/// The first quotation mark that is opened and not closed at the end of its field. The reader of records would take all lines up to the next
/// one, or up to the end of the file, for one field, and rows would be lost without a word.
fn open_quote(text: &[u8], separator: u8) -> Option<Wrong> {
    let (mut line, mut opened) = (1, 0);
    let (mut is_start, mut is_inside) = (true, false);
    let mut at = 0;
    while at < text.len() {
        let (byte, next) = (text[at], text.get(at + 1).copied());
        if byte == b'\n' {
            line += 1;
        }
        if is_inside && byte == b'"' {
            match next {
                Some(b'"') => at += 1,
                None | Some(b'\r' | b'\n' | b' ') => is_inside = false,
                Some(sign) if sign == separator => is_inside = false,
                _ => return Some(Wrong::new(opened, badly_closed(opened, line))),
            }
        } else if !is_inside {
            is_inside = is_start && byte == b'"';
            opened = line;
            is_start = byte == separator || byte == b'\n';
        }
        at += 1;
    }
    is_inside.then(|| Wrong::new(opened, "a quotation mark (\") is opened here and never closed"))
}

fn badly_closed(opened: usize, closed: usize) -> String {
    let here = if opened == closed { "in the middle of a field".to_string() } else { format!("in the middle of a field of line {closed}") };
    format!("a quotation mark (\") is opened here and closed {here}. A quotation mark inside a field is written twice (\"\")")
}

/// The records of a text, each with the number of the line where it begins.
struct Records<'a> {
    text: &'a [u8],
    reader: csv::Reader<&'a [u8]>,
    /// Lines begun up to this byte.
    line: usize,
    counted: usize,
}

impl<'a> Records<'a> {
    fn of(text: &'a str, separator: u8) -> Records<'a> {
        let text = text.as_bytes();
        let reader = ReaderBuilder::new()
            .delimiter(separator)
            .has_headers(false)
            .flexible(true)
            .terminator(Terminator::Any(b'\n'))
            .from_reader(text);
        Records { text, reader, line: 1, counted: 0 }
    }

    /// The reader's own line numbers leave out blank lines and differ for CRLF, so lines are counted here.
    fn line_at(&mut self, byte: usize) -> usize {
        let blank = self.text[byte..].iter().take_while(|b| matches!(b, b'\n' | b'\r'));
        let start = byte + blank.count();
        let passed = &self.text[self.counted..start];
        self.line += passed.iter().filter(|b| **b == b'\n').count();
        self.counted = start;
        self.line
    }
}

impl Iterator for Records<'_> {
    type Item = (usize, StringRecord);

    fn next(&mut self) -> Option<(usize, StringRecord)> {
        let byte = self.reader.position().byte() as usize;
        let mut record = StringRecord::new();
        // Reading text from memory, with rows of any length allowed, has no way to fail.
        let is_read = self.reader.read_record(&mut record).unwrap_or(false);
        is_read.then(|| (self.line_at(byte), record))
    }
}

/// A field as it can be printed in one short line.
fn shown(field: &str) -> String {
    let clean = blank_trimmed(field).chars().map(|c| if c.is_control() { ' ' } else { c });
    let mut out: String = clean.clone().take(40).collect();
    if clean.count() > 40 {
        out.push_str("...");
    }
    out
}

#[cfg(test)]
mod tests {
    use super::*;

    fn lines(text: &str) -> Vec<(usize, i32)> {
        let rows = judge(text, &Names::default()).unwrap().0;
        rows.iter().map(|r| (r.line, r.spot.place)).collect()
    }

    fn wrong(text: &str) -> Vec<(usize, String)> {
        let wrong = judge(text, &Names::default()).unwrap_err();
        wrong.into_iter().map(|w| (w.line, w.what)).collect()
    }

    #[test]
    fn lines_are_counted_in_every_kind_of_file() {
        let rows = [
            "place,rank,track\n1,0,0\n2,0,0\n",
            "place,rank,track\r\n1,0,0\r\n2,0,0\r\n",
            "place,rank,track\r\n1,0,\"0\"\r\n2,0,0",
            "track,place,rank\n0,1,0\n0,2,0",
        ];
        for text in rows {
            assert_eq!(lines(text), [(2, 1), (3, 2)], "{text:?}");
        }
        let blank = ["place,rank,track\n\n\n1,0,0\n\n2,0,0\n", "place,rank,track\r\n\r\n\r\n1,0,0\r\n,,\r\n2,0,0\r\n"];
        for text in blank {
            assert_eq!(lines(text), [(4, 1), (6, 2)], "{text:?}");
        }
        for end in ["\n", "\r\n"] {
            let text = format!("title,place,rank,track{end}\"two{end}lines, a \"\"comma\"\"\",1,0,0{end}x,2,0,0{end}");
            assert_eq!(lines(&text), [(2, 1), (4, 2)], "{text:?}");
        }
    }

    #[test]
    fn names_of_columns_in_any_case_and_order() {
        let text = "Case; old,TRACK, Rank ,place\na;b,3,2,1\n";
        let rows = judge(text, &Names::default()).unwrap().0;
        assert_eq!(rows[0].spot, Spot { place: 1, rank: 2, track: 3 });
    }

    #[test]
    fn what_is_wrong_is_said_in_plain_words() {
        let text = "place,rank,track\n2400,\"12,5\",1\n2400,7,51\n,7,x\n2400,7,60\n1,2\n1,2,3,4\n2147483648,-2147483649,4294967296\n\u{2212}5,1,1\n1;2;3\n1000001,1,1\n-1000001,1,1\n";
        let limits = "is not a whole number from -1000000 to 1000000";
        let range = "is not a whole number from -2147483648 to 2147483647";
        let expected = [
            (2, format!("rank \"12,5\" {range}")),
            (4, "place is empty".into()),
            (4, "track \"x\" is not a whole number from 0 to 4294967295".into()),
            (5, "place 2400 rank 7 stands already in line 3 (track 51, here 60)".into()),
            (6, "there are 2 columns where the first line has 3".into()),
            (7, "there are 4 columns where the first line has 3. A field with a comma in it has to stand in quotation marks".into()),
            (8, format!("place \"2147483648\" {limits}")),
            (8, format!("rank \"-2147483649\" {range}")),
            (8, "track \"4294967296\" is not a whole number from 0 to 4294967295".into()),
            (9, format!("place \"\u{2212}5\" {limits}: its minus sign has to be the plain -")),
            (10, "there is 1 column where the first line has 3. There are semicolons between columns; they have to be commas".into()),
            (11, format!("place \"1000001\" {limits}")),
            (12, format!("place \"-1000001\" {limits}")),
        ];
        assert_eq!(wrong(text), expected);
    }

    #[test]
    fn both_limits_are_places() {
        assert_eq!(lines("place,rank,track\n-1000000,0,0\n1000000,0,0\n+1000000,1,0\n"), [(2, -1_000_000), (3, 1_000_000), (4, 1_000_000)]);
    }

    #[test]
    fn the_first_line_has_to_name_the_columns() {
        let first = |text: &str| wrong(text)[0].1.clone();
        assert!(first("place;rank\n1;2\n")
            .contains("no column is named track. The first line has to name the columns place, rank and track; it has: place, rank"));
        assert!(first("place,track\n1,2\n").contains("no column is named rank"));
        assert!(first("1,2,3\n4,5,6\n").contains("it has: 1, 2, 3"));
        assert!(first("place,rank,track,rank\n").contains("two columns are named rank"));
    }

    #[test]
    fn a_quotation_mark_left_open_is_named() {
        let head = "place,rank,track,title\n";
        let open = "is opened here and never closed";
        let middle = "closed in the middle of a field of line 3";
        let rows = [("1,2,3,\"a\n4,5,6,b\n", open), ("1,2,3,\"a\n4,5,6,\"\"\n", open), ("1,2,3,\"a\n4,5,6,\"b\"\n", middle)];
        for (text, words) in rows {
            let all = wrong(&format!("{head}{text}"));
            assert!(all.len() == 1 && all[0].0 == 2 && all[0].1.contains(words), "{all:?}");
        }
        let fine = "1,2,3,\"a\"\"b\"\n4,5,6,5\" pipe\n7,8,9,\"\"\n1,1,1,\"a\" \n";
        assert_eq!(lines(&format!("{head}{fine}")).len(), 4);
    }
}
