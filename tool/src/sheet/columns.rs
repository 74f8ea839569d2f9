//! Which columns of a sheet are used, by the names in its header.

use super::number::{whole, Marks};
use super::{blank_trimmed, shown, Texts};
use crate::spot::Spot;
use crate::store::{HIGHEST_PLACE, LOWEST_PLACE};
use crate::words;
use csv::StringRecord;
use std::str::FromStr;

const KEYS: [&str; 5] = ["place", "rank", "track", "title", "room"];
/// A sheet has to have so many of them.
const NEEDED: usize = 3;

/// The names that the columns have in a sheet.
#[derive(Clone, Debug, PartialEq, Eq)]
pub struct Names {
    names: [String; 5],
    /// Whether someone named the column, so that it has to be there.
    is_given: [bool; 5],
}

impl Default for Names {
    fn default() -> Names {
        Names { names: KEYS.map(String::from), is_given: [false; 5] }
    }
}

/// As in `place=Ort,rank=Rang,track=Spur`.
impl FromStr for Names {
    type Err = String;

    fn from_str(text: &str) -> Result<Names, String> {
        let mut out = Names::default();
        for part in text.split(',') {
            let (key, name) = part.split_once('=').ok_or_else(|| format!("\"{part}\" is not of the form place=Ort"))?;
            let key = key.trim().to_lowercase();
            let at = KEYS.iter().position(|k| *k == key);
            let at = at.ok_or_else(|| format!("\"{key}\" is none of place, rank, track, title, room"))?;
            let name = blank_trimmed(name);
            if name.is_empty() || out.is_given[at] {
                return Err(format!("{key} has to be given one name"));
            }
            out.names[at] = name.into();
            out.is_given[at] = true;
        }
        Ok(out)
    }
}

/// Where the columns are.
#[derive(Debug)]
pub struct Columns {
    width: usize,
    at: [usize; NEEDED],
    /// Title and room, which need not be there.
    pub texts: [Option<usize>; 2],
    separator: u8,
}

impl Columns {
    pub fn of(header: &StringRecord, names: &Names, separator: u8) -> Result<Columns, String> {
        let has: Vec<String> = header.iter().map(|f| blank_trimmed(f).to_lowercase()).collect();
        let mut found = [None; 5];
        for (i, at) in found.iter_mut().enumerate() {
            let wanted = names.names[i].to_lowercase();
            let here: Vec<usize> = (0..has.len()).filter(|j| has[*j] == wanted).collect();
            *at = match here[..] {
                [] if i < NEEDED || names.is_given[i] => return Err(missing(i, names, header)),
                [_, _, ..] if i < NEEDED => return Err(format!("two columns are named {}", names.names[i])),
                _ => here.first().copied(),
            };
        }
        let at = [0, 1, 2].map(|i: usize| found[i].unwrap_or_default());
        Ok(Columns { width: header.len(), at, texts: [found[3], found[4]], separator })
    }

    /// The fields of place, rank and track, if the row has them.
    pub fn numbers<'a>(&self, record: &'a StringRecord) -> [&'a str; NEEDED] {
        self.at.map(|i| blank_trimmed(record.get(i).unwrap_or_default()))
    }

    pub fn texts(&self, record: &StringRecord) -> Texts {
        let text = |at: Option<usize>| shown_whole(at.and_then(|i| record.get(i)).unwrap_or_default());
        Texts { title: text(self.texts[0]), room: text(self.texts[1]) }
    }

    /// The spot of a row, or all that is wrong with it.
    pub fn spot(&self, record: &StringRecord, marks: &Marks) -> Result<Spot, Vec<String>> {
        if record.len() != self.width {
            return Err(vec![self.wrong_width(record)]);
        }
        let [place, rank, track] = self.numbers(record);
        let place = whole(place, "place", (LOWEST_PLACE, HIGHEST_PLACE), marks);
        let rank = whole(rank, "rank", (i32::MIN, i32::MAX), marks);
        let track = whole(track, "track", (u32::MIN, u32::MAX), marks);
        match (place, rank, track) {
            (Ok(place), Ok(rank), Ok(track)) => Ok(Spot { place, rank, track }),
            (a, b, c) => Err([a.err(), b.err(), c.err()].into_iter().flatten().collect()),
        }
    }

    fn wrong_width(&self, record: &StringRecord) -> String {
        let has = words::count(record.len(), "column");
        let sign = match self.separator {
            b',' => "comma",
            b';' => "semicolon",
            b'\t' => "tab",
            _ => "separator",
        };
        let others = [(';', "semicolons"), (',', "commas"), ('\t', "tabs")];
        let other = others.iter().find(|(c, _)| *c as u8 != self.separator && record.iter().any(|f| f.contains(*c)));
        let hint = match other {
            _ if record.len() > self.width => format!(". A field with a {sign} in it has to stand in quotation marks"),
            Some((_, name)) => format!(". There are {name} between columns; they have to be {sign}s"),
            None => String::new(),
        };
        format!("there are {has} where the first line has {}{hint}", words::number(self.width as i128))
            .replace("there are 1 column ", "there is 1 column ")
    }
}

fn missing(wanted: usize, names: &Names, header: &StringRecord) -> String {
    let has: Vec<String> = header.iter().map(shown).collect();
    let [place, rank, track, ..] = &names.names;
    let hint = if names.is_given.contains(&true) { "" } else { ". If they have other names: --columns place=Ort,rank=Rang,track=Spur" };
    format!(
        "no column is named {}. The first line has to name the columns {place}, {rank} and {track}; it has: {}{hint}",
        names.names[wanted],
        has.join(", ")
    )
}

/// A text in one line.
fn shown_whole(field: &str) -> String {
    let words: Vec<&str> = field.split(|c: char| c.is_whitespace() || c.is_control()).filter(|w| !w.is_empty()).collect();
    words.join(" ")
}

#[cfg(test)]
mod tests {
    use super::*;

    #[test]
    fn names_are_given_by_key() {
        let names: Names = "place=Ort, rank = Rang ,TRACK=Spur".parse().unwrap();
        assert_eq!(names.names, ["Ort", "Rang", "Spur", "title", "room"]);
        let rows = [
            ("Ort", "\"Ort\" is not of the form place=Ort"),
            ("ort=place", "\"ort\" is none of place, rank, track, title, room"),
            ("place=", "place has to be given one name"),
            ("rank=a,rank=b", "rank has to be given one name"),
        ];
        for (text, words) in rows {
            assert_eq!(text.parse::<Names>(), Err(words.into()));
        }
    }
}
