//! The command that presses a tour.

use super::{ask, say};
use crate::card;
use crate::kind::Kind;
use crate::problem::refused;
use crate::sheet::{self, Names, Sheet};
use crate::spot::Spot;
use crate::store::{Tour, TOUR_SPOTS};
use crate::words;
use anyhow::Result;
use std::path::Path;
use std::time::Duration;

pub fn press(path: &Path, names: &Names, output: &Path, force: bool, wait: Duration) -> Result<()> {
    let name = words::name(output);
    let sheet = sheet::read(path, names)?;
    judge_number(&sheet)?;
    if ask::is_same_file(path, output) {
        return Err(refused(format!("{name} is the sheet itself. Choose another name for the tour.")));
    }
    let spots: Vec<Spot> = sheet.rows.iter().map(|row| row.spot).collect();
    let tour = Tour::press(&spots)?;
    if !tour.is_sound() {
        return Err(refused(
            "the tour would not be as it should, so it was not saved. This must not happen: please report it, with the sheet and the command.",
        ));
    }
    card::lock_new(output, force, Kind::Tour, wait)?.save(tour.bytes())?;
    let (spots, blocks) = (words::count(spots.len(), "spot"), words::count(tour.blocks(), "block"));
    say(format!("{name}: a tour of the {spots} of {}, in {blocks} of 2,048 bytes.", sheet.name))
}

/// The first row that finds no room, and how many do not.
fn judge_number(sheet: &Sheet) -> Result<()> {
    let Some(row) = sheet.rows.get(TOUR_SPOTS) else {
        return Ok(());
    };
    let (line, name, spots) = (row.line, &sheet.name, words::count(sheet.rows.len(), "spot"));
    Err(refused(format!(
        "{name} line {line}: no room for {}. {name} has {spots}, and a tour has at most {TOUR_SPOTS}. Nothing was changed. A card has room for more: `spotcard new CARD`, then \
        `spotcard import {name} CARD`.",
        row.spot.key()
    )))
}
