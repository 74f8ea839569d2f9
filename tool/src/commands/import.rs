//! The command that puts the rows of a sheet on a card.

use super::change::{filling, full, save};
use super::say;
use crate::card::{self, Card};
use crate::problem::{refused, Problem};
use crate::sheet::{self, Names, Sheet, Wrong, MOST_NAMED};
use crate::spot::{Key, Spot};
use crate::store::{Change, Message, Table, MOST_CHANGES};
use crate::words;
use anyhow::Result;
use std::collections::{HashMap, HashSet};
use std::path::Path;
use std::time::Duration;

/// Whether the card holds exactly the sheet afterwards, whether that was confirmed, and whether nothing is to be changed.
pub struct How {
    pub is_replace: bool,
    pub is_sure: bool,
    pub is_dry: bool,
}

pub fn import(sheet: &Path, names: &Names, path: &Path, how: How, wait: Duration) -> Result<()> {
    let sheet = sheet::read(sheet, names)?;
    let writer = if how.is_dry { None } else { Some(card::lock(path, wait)?) };
    let Card { name, mut table, .. } = writer.as_ref().map_or_else(|| card::read_unchanged(path), |w| w.read())?;
    let on_card: HashMap<Key, u32> = table.all()?.iter().map(|s| (s.key(), s.track)).collect();
    if how.is_replace {
        judge_room(&sheet, &name, &table, &HashMap::new())?;
        judge_loss(&sheet, &name, &on_card, &how)?;
    } else {
        judge_room(&sheet, &name, &table, &on_card)?;
        judge_against(&sheet, &name, &on_card)?;
    }
    let is_there = |s: &Spot| on_card.get(&s.key()) == Some(&s.track);
    let there = sheet.rows.iter().filter(|r| is_there(&r.spot)).count();
    let news = sheet.rows.len() - there;
    let gone = if how.is_replace { on_card.len() - there } else { 0 };
    if news + gone > 0 {
        if how.is_replace {
            table = Table::empty(table.blocks())?;
        }
        add_all(&sheet, &mut table)?;
        if let Some(writer) = &writer {
            save(writer, &table)?;
        }
    }
    let [news, there, gone] = [news, there, gone].map(|n| words::number(n as i128));
    let gone = if how.is_replace { format!(", {gone} withdrawn") } else { String::new() };
    let (rows, now) = (words::count(sheet.rows.len(), "row"), after(&table, how.is_dry)?);
    say(format!("{name}: {rows} of {}: {news} new, {there} on the card already{gone}; {now}.", sheet.name))
}

/// How full the card is now, or would be.
pub fn after(table: &Table, is_dry: bool) -> Result<String> {
    let now = filling(table)?;
    Ok(if is_dry { format!("{}. Nothing was changed (--dry-run)", now.replace("it holds", "it would hold")) } else { now })
}

/// A sheet that takes more than half of the spots off the card, or all of them, is likely the wrong one.
fn judge_loss(sheet: &Sheet, name: &str, on_card: &HashMap<Key, u32>, how: &How) -> Result<()> {
    let stay: HashSet<Key> = sheet.rows.iter().map(|row| row.spot.key()).collect();
    let mut gone: Vec<Spot> = on_card.iter().map(|(k, track)| Spot { place: k.place, rank: k.rank, track: *track }).collect();
    gone.retain(|spot| !stay.contains(&spot.key()));
    if how.is_sure || 2 * gone.len() <= on_card.len() {
        return Ok(());
    }
    gone.sort_unstable();
    let line = |s: &Spot| format!("would go: {} track {}", s.key(), s.track);
    let mut lines: Vec<String> = gone.iter().take(MOST_NAMED).map(line).collect();
    if gone.len() > MOST_NAMED {
        lines.push(format!("... and {} more", words::number((gone.len() - MOST_NAMED) as i128)));
    }
    let empty = if sheet.rows.is_empty() { format!("{} has no rows: ", sheet.name) } else { String::new() };
    let [gone, all] = [gone.len(), on_card.len()].map(|n| words::number(n as i128));
    let summary = format!("{empty}{gone} of the {all} spots of {name} would go. Nothing was changed. If that is meant, say --yes.");
    Err(Problem::List { lines, summary }.into())
}

/// Rows that would give another track to a spot on the card.
fn judge_against(sheet: &Sheet, name: &str, on_card: &HashMap<Key, u32>) -> Result<()> {
    let other = |row: &sheet::Row| {
        let (key, here) = (row.spot.key(), row.spot.track);
        let track = on_card.get(&key).filter(|track| **track != here)?;
        let what = format!("{key} is on {name} already (track {track}, here {here})");
        Some(Wrong::new(row.line, what))
    };
    let wrong: Vec<Wrong> = sheet.rows.iter().filter_map(other).collect();
    if wrong.is_empty() {
        return Ok(());
    }
    let hint = "With --replace the card would hold exactly the rows of the sheet.";
    Err(sheet::list_with_hint(&sheet.name, &wrong, hint))
}

/// By messages, which takes far less time than row by row.
fn add_all(sheet: &Sheet, table: &mut Table) -> Result<()> {
    for rows in sheet.rows.chunks(MOST_CHANGES) {
        let changes: Vec<Change> = rows.iter().map(|row| Change::Add(row.spot)).collect();
        let applied = table.apply(&Message::write(&changes)?);
        applied.map_err(|(refusal, at)| anyhow::Error::new(refusal).context(format!("{} line {}", sheet.name, rows[at].line)))?;
    }
    Ok(())
}

/// The first row that finds no room beside the spots that stay, and how many do not.
fn judge_room(sheet: &Sheet, name: &str, table: &Table, stay: &HashMap<Key, u32>) -> Result<()> {
    let room = table.capacity() - stay.len();
    let news: Vec<&sheet::Row> = sheet.rows.iter().filter(|r| !stay.contains_key(&r.spot.key())).collect();
    let Some(row) = news.get(room) else {
        return Ok(());
    };
    let (line, key, full) = (row.line, row.spot.key(), full(name, table, news.len() - room));
    Err(refused(format!("{} line {line}: no room for {key}. {full} Nothing was changed.", sheet.name)))
}
