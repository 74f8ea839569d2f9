//! What spots are called, from a sheet beside the card: a card has numbers alone.

use crate::args::Beside;
use crate::problem::refused;
use crate::sheet::{self, Texts};
use crate::spot::Spot;
use crate::words;
use anyhow::Result;
use std::collections::HashMap;

pub struct Titles {
    sheet: String,
    /// Whether there are titles, and rooms.
    has: [bool; 2],
    texts: HashMap<Spot, Texts>,
}

impl Titles {
    pub fn read(beside: &Beside) -> Result<Option<Titles>> {
        let Some(path) = &beside.sheet else {
            return Ok(None);
        };
        let sheet = sheet::read(path, &beside.columns.names())?;
        if sheet.has_texts == [false, false] {
            return Err(refused(format!(
                "{} has no column named title or room. If they have other names: --columns title=Titel,room=Raum",
                sheet.name
            )));
        }
        let texts = sheet.rows.into_iter().map(|row| (row.spot, row.texts)).collect();
        Ok(Some(Titles { sheet: sheet.name, has: sheet.has_texts, texts }))
    }

    /// "Model of the harbour (Entrance hall)", or nothing where the sheet has no such spot with this track.
    pub fn words(&self, spot: Spot) -> String {
        match self.texts.get(&spot) {
            Some(Texts { title, room }) if room.is_empty() => title.clone(),
            Some(Texts { title, room }) => format!("{title} ({room})").trim_start().into(),
            None => String::new(),
        }
    }

    /// The same as further columns of CSV.
    pub fn columns(&self, spot: Spot) -> String {
        let Texts { title, room } = self.texts.get(&spot).cloned().unwrap_or_default();
        let texts = [title, room].into_iter().zip(self.has).filter(|(_, has)| *has);
        texts.map(|(text, _)| format!(",{}", quoted(&text))).collect()
    }

    pub fn header(&self) -> String {
        ["title", "room"].iter().zip(self.has).filter(|(_, has)| *has).map(|(name, _)| format!(",{name}")).collect()
    }

    /// What is to be said of spots that the sheet doesn't have.
    pub fn missing<'a>(&self, spots: impl Iterator<Item = &'a Spot>) -> Option<String> {
        let n = spots.filter(|spot| !self.texts.contains_key(spot)).count();
        let stand = if n == 1 { "stands" } else { "stand" };
        (n > 0).then(|| format!("{} {stand} not in {}, or with another track there", words::count(n, "spot"), self.sheet))
    }
}

/// A field of CSV, in quotation marks where it needs them.
pub fn quoted(text: &str) -> String {
    if text.contains([',', '"', '\n', '\r']) {
        format!("\"{}\"", text.replace('"', "\"\""))
    } else {
        text.into()
    }
}
