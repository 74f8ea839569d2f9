//! Commands that answer with spots.

use super::{read_any_for_question, read_for_question, say};
use crate::args::{Beside, Range, Shape, Wanted};
use crate::card::Card;
use crate::kind::Kind;
use crate::problem;
use crate::spot::Spot;
use crate::store::Found;
use crate::titles::Titles;
use crate::{output, words};
use anyhow::Result;
use std::path::Path;

pub fn export(path: &Path, output: Option<&Path>, force: bool) -> Result<()> {
    let Card { name, table, .. } = read_for_question(path)?;
    let spots = table.all()?;
    let text = csv_of(&spots, None);
    let Some(output) = output else {
        return say(text.trim_end());
    };
    if is_same_file(path, output) {
        return Err(problem::refused(format!("{name} is the card itself. Choose another name for the sheet.")));
    }
    output::write(output, text.as_bytes(), Kind::Sheet, force)?;
    say(format!("{}: {} of {name}, in place order.", words::name(output), words::count(spots.len(), "spot")))
}

pub fn is_same_file(a: &Path, b: &Path) -> bool {
    matches!((a.canonicalize(), b.canonicalize()), (Ok(a), Ok(b)) if a == b)
}

pub fn csv_of(spots: &[Spot], titles: Option<&Titles>) -> String {
    let mut out = format!("place,rank,track{}\n", titles.map(Titles::header).unwrap_or_default());
    for s in spots {
        out.push_str(&format!("{}\n", csv_row(*s, titles)));
    }
    out
}

fn csv_row(spot: Spot, titles: Option<&Titles>) -> String {
    let Spot { place, rank, track } = spot;
    format!("{place},{rank},{track}{}", titles.map(|t| t.columns(spot)).unwrap_or_default())
}

pub fn report(path: &Path, wanted: &[Wanted], shape: &Shape, beside: &Beside) -> Result<()> {
    let held = read_any_for_question(path)?;
    let titles = Titles::read(beside)?;
    let titles = titles.as_ref();
    if let [one] = wanted {
        let found = held.report(one.range.x1, one.range.x2, one.y)?;
        return show(&found, shape, &spots_of(one, &found.spots), vec![], held.blocks(), titles);
    }
    let ranges: Vec<_> = wanted.iter().map(|w| (w.range.x1, w.range.x2, w.y)).collect();
    let (each, blocks) = held.report_many(&ranges)?;
    let mut csv = vec![format!("range,place,rank,track{}", titles.map(Titles::header).unwrap_or_default())];
    let mut out = vec![];
    for (number, (own, spots)) in (1..).zip(wanted.iter().zip(&each)) {
        out.push(format!("range {number}: {}", spots_of(own, spots)));
        out.extend(listed(spots, titles));
        csv.extend(spots.iter().map(|s| format!("{number},{}", csv_row(*s, titles))));
    }
    let total = each.iter().map(Vec::len).sum();
    out.push(format!("{} in {}", words::count(total, "spot"), words::count(each.len(), "range")));
    let notes = titles.and_then(|t| t.missing(each.iter().flatten())).into_iter().collect();
    print(if shape.csv { csv } else { out }, notes, &blocks, shape, held.blocks())
}

fn spots_of(wanted: &Wanted, spots: &[Spot]) -> String {
    format!("{} {} with rank {} or more", words::count(spots.len(), "spot"), wanted.range.words(), wanted.y)
}

pub fn top(path: &Path, range: &Range, (k, allow): (u32, Option<u32>), shape: &Shape, beside: &Beside) -> Result<()> {
    let Card { table, .. } = read_for_question(path)?;
    let titles = Titles::read(beside)?;
    let (found, notes) = match allow {
        None => (table.top(range.x1, range.x2, k)?, vec![]),
        Some(nodes) => {
            let (found, ceiling) = table.top_within(range.x1, range.x2, k, nodes)?;
            let rest = rest(&found, k, nodes, ceiling);
            (found, vec![rest])
        }
    };
    let title = format!("the best {} {}", words::count(found.spots.len(), "spot"), range.words());
    show(&found, shape, &title, notes, table.blocks(), titles.as_ref())
}

/// What is known of the spots that are not shown, where k were asked for and so many nodes allowed.
fn rest(found: &Found, k: u32, allowed: u32, ceiling: i32) -> String {
    // block 0 is no node
    let read = found.blocks.len() - 1;
    let what = if found.spots.len() == k as usize {
        "these are all that were asked for".into()
    } else if read < allowed as usize {
        "nothing else stands there".into()
    } else if ceiling == i32::MIN {
        // the ceiling is the same where such a spot is left and where nothing is
        format!("nothing else stands there, except perhaps with the lowest rank of all, {ceiling}")
    } else {
        format!("others may still stand there, up to rank {ceiling}")
    };
    format!("{} read: {what}", words::count(read, "node"))
}

fn show(found: &Found, shape: &Shape, title: &str, mut notes: Vec<String>, of: usize, titles: Option<&Titles>) -> Result<()> {
    let mut out = vec![];
    if shape.csv {
        out.push(csv_of(&found.spots, titles).trim_end().to_string());
    } else {
        out.push(title.to_string());
        out.extend(listed(&found.spots, titles));
    }
    notes.extend(titles.and_then(|t| t.missing(found.spots.iter())));
    print(out, notes, &found.blocks, shape, of)
}

/// A line for each spot, under one that names the columns.
fn listed(spots: &[Spot], titles: Option<&Titles>) -> Vec<String> {
    let mut out = vec![];
    let row =
        |place: &str, rank: &str, track: &str, title: &str| format!("{place:>11} {rank:>11} {track:>10}  {title}").trim_end().to_string();
    if !spots.is_empty() {
        out.push(row("place", "rank", "track", titles.map_or("", |_| "title")));
    }
    for s in spots {
        let title = titles.map(|t| t.words(*s)).unwrap_or_default();
        out.push(row(&s.place.to_string(), &s.rank.to_string(), &s.track.to_string(), &title));
    }
    out
}

/// The lines, what is to be said of them, and the blocks read, where they are asked for.
fn print(mut out: Vec<String>, mut notes: Vec<String>, blocks: &[usize], shape: &Shape, of: usize) -> Result<()> {
    if shape.blocks {
        let numbers: Vec<String> = blocks.iter().map(|b| b.to_string()).collect();
        notes.push(format!("{} read of {}: {}", words::count(blocks.len(), "block"), words::number(of as i128), numbers.join(" ")));
    }
    if shape.csv {
        // These are no rows of the sheet.
        notes.iter().for_each(|note| problem::print(note));
    } else {
        out.extend(notes);
    }
    say(out.join("\n"))
}
