//! The command that compares two files.

use super::{read_any_for_question, say};
use crate::card::Held;
use crate::changes::{self, Changes};
use crate::input;
use crate::kind::Kind;
use crate::problem::{refused, Problem};
use crate::sheet::{self, Names};
use crate::spot::{Key, Spot};
use crate::store::Change;
use crate::titles::quoted;
use crate::{output, words};
use anyhow::Result;
use std::collections::BTreeMap;
use std::path::Path;

/// The spots of a file, with the lines where they stand in a sheet.
struct Side {
    name: String,
    /// "card", "tour", "sheet", or "after" the changes.
    what: String,
    spots: BTreeMap<Spot, Option<usize>>,
}

pub fn diff(one: &Path, other: &Path, names: &Names, csv: bool) -> Result<()> {
    if input::is_standard(one) && input::is_standard(other) {
        return Err(refused("standard input can be one of the two files, not both."));
    }
    let mut one = side(one, names)?;
    let mut other = match changes::read_if_changes(other)? {
        Some(changes) => after(&one, &changes),
        None => side(other, names)?,
    };
    if one.what == other.what {
        // Two of a kind are told apart by their names.
        [one.what, other.what] = [one.name.clone(), other.name.clone()];
    }
    let mut rows: Vec<(Spot, &Side)> = vec![];
    for (own, not) in [(&one, &other), (&other, &one)] {
        rows.extend(own.spots.keys().filter(|spot| !not.spots.contains_key(spot)).map(|spot| (*spot, own)));
    }
    rows.sort_by_key(|(spot, _)| *spot);
    let mut out: Vec<String> = csv.then(|| "only_in,place,rank,track,line".to_string()).into_iter().collect();
    let wide = [&one, &other].map(|side| label(side).chars().count()).into_iter().max().unwrap_or(0) + 2;
    out.extend(rows.iter().map(|(spot, side)| line(*spot, side, csv, wide)));
    if rows.is_empty() && !csv {
        out.push(format!("{} and {} have the same {}.", one.name, other.name, words::count(one.spots.len(), "spot")));
    }
    say(out.join("\n"))?;
    if rows.is_empty() {
        Ok(())
    } else {
        Err(Problem::No.into())
    }
}

/// A card, a tour or a sheet.
fn side(path: &Path, names: &Names) -> Result<Side> {
    let is_file = !input::is_standard(path) && std::fs::metadata(path).is_ok_and(|about| about.is_file());
    let kind = if is_file { output::start_of(path).ok().and_then(|bytes| Kind::of(&bytes)) } else { None };
    match kind {
        Some(Kind::Card | Kind::Tour) => {
            let held = read_any_for_question(path)?;
            let what = if matches!(held, Held::Card(_)) { "card" } else { "tour" };
            let spots = held.all()?.into_iter().map(|spot| (spot, None)).collect();
            Ok(Side { name: held.name().into(), what: what.into(), spots })
        }
        Some(Kind::Changes) => Err(refused(format!(
            "{} is a file of changes. It can be the second file, behind the one that it would change.",
            input::name(path)
        ))),
        _ => {
            let sheet = sheet::read(path, names)?;
            let spots = sheet.rows.iter().map(|row| (row.spot, Some(row.line))).collect();
            Ok(Side { name: sheet.name, what: "sheet".into(), spots })
        }
    }
}

/// The spots of the first file once the changes are carried out.
fn after(one: &Side, changes: &Changes) -> Side {
    let mut tracks: BTreeMap<Key, u32> = one.spots.keys().map(|s| (s.key(), s.track)).collect();
    for change in changes.all() {
        match change {
            Change::Add(spot) => tracks.insert(spot.key(), spot.track),
            Change::Withdraw(key) => tracks.remove(&key),
        };
    }
    let spots = tracks.into_iter().map(|(k, track)| (Spot { place: k.place, rank: k.rank, track }, None)).collect();
    Side { name: format!("{} after {}", one.name, changes.name), what: "after".into(), spots }
}

fn label(side: &Side) -> String {
    match side.what.as_str() {
        "card" | "tour" => format!("only on the {}:", side.what),
        "sheet" => "only in the sheet:".into(),
        "after" => "only after the changes:".into(),
        name => format!("only in {name}:"),
    }
}

fn line(spot: Spot, side: &Side, csv: bool, wide: usize) -> String {
    let Spot { place, rank, track } = spot;
    let line = side.spots.get(&spot).copied().flatten();
    if csv {
        let line = line.map(|n| n.to_string()).unwrap_or_default();
        return format!("{},{place},{rank},{track},{line}", quoted(&side.what));
    }
    let line = line.map(|n| format!(" (line {n})")).unwrap_or_default();
    format!("{:<wide$}{} track {track}{line}", label(side), spot.key())
}
