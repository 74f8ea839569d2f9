//! Commands that look at the card itself.

use super::{ask, read_for_question, say};
use crate::args::{top_query, Beside};
use crate::card::{self, Card, Held, Pressed};
use crate::changes;
use crate::digest::Digest;
use crate::kind::Kind;
use crate::picture::{self, Query};
use crate::problem::{self, Problem};
use crate::store::{Found, Table, BLOCK};
use crate::titles::Titles;
use crate::{output, words};
use anyhow::Result;
use spot_reference::{Fault, MOST_FAULTS, RULES};
use std::collections::BTreeSet;
use std::path::Path;

pub fn check(path: &Path) -> Result<()> {
    if let Some(changes) = changes::read_if_changes(path)? {
        let size = format!("{} in {}", words::count(changes.count(), "change"), words::count(changes.messages.len(), "message"));
        return say(format!(
            "{} is a file of changes, and is sound: {size}.\nA message has no seal, so that a changed track number could not be seen.",
            changes.name
        ));
    }
    let held = card::read_any(path)?;
    let is_sound = match &held {
        Held::Card(Card { name, table, .. }) => {
            let is_sound = table.is_sound()?;
            say(verdict(name, is_sound, &spot_reference::faults(table.bytes())))?;
            is_sound
        }
        Held::Tour(Pressed { name, tour, .. }) => {
            let is_sound = tour.is_sound();
            let no =
                "NOT sound: pressing its spots would give other bytes. Go back to a copy of the tour, or press it again from the sheet";
            say(format!("{name} is a pressed tour, and is {}.", if is_sound { "sound" } else { no }))?;
            is_sound
        }
    };
    say(of_digest(&held))?;
    if is_sound && held.digest() != Digest::Differs {
        Ok(())
    } else {
        Err(Problem::No.into())
    }
}

fn of_digest(held: &Held) -> String {
    let name = held.digest_name();
    let (what, next) = match held {
        Held::Card(_) => ("card", " The first change makes one."),
        Held::Tour(_) => ("tour", ""),
    };
    match held.digest() {
        Digest::Same => format!("Its bytes are those that spotcard wrote ({name})."),
        Digest::None => format!("There is no {name}, so that a changed track number could not be seen.{next}"),
        Digest::Differs => format!(
            "Its bytes are NOT those that spotcard wrote: the digest is not the one in {name}. A track number may have changed. Go back to a copy of the {what}. If another {what} \
            was put there on purpose, delete {name}."
        ),
    }
}

/// The library's verdict and our own reasons; where they do not fit together, that.
fn verdict(name: &str, is_sound: bool, faults: &[Fault]) -> String {
    const REPORT: &str = "One of the two is wrong. Please report it, and send the card with the report.";
    let reasons = reasons(faults);
    match (is_sound, faults.is_empty()) {
        (true, true) => format!("{name} is sound."),
        (false, false) => format!("{name} is NOT sound.\n{reasons}"),
        (true, false) => {
            format!("{name} is sound by the proved library, but spotcard's own reading of the rules finds faults:\n{reasons}\n{REPORT}")
        }
        (false, true) => {
            format!("{name} is NOT sound by the proved library, but spotcard's own reading of the rules finds no fault.\n{REPORT}")
        }
    }
}

fn reasons(faults: &[Fault]) -> String {
    let mut out = vec![];
    for f in faults {
        let start = f.block * BLOCK;
        let file = words::bytes(&(start + f.bytes.start..start + f.bytes.end));
        out.push(f.to_string());
        out.push(format!("    block {}: {}; in the file, {file}", f.block, f.way));
    }
    if faults.len() == MOST_FAULTS {
        out.push("These are the first faults; there may be more.".into());
    }
    let broken: BTreeSet<usize> = faults.iter().map(|f| f.rule).collect();
    out.extend(broken.iter().map(|rule| format!("Rule {rule}: {}", RULES[rule - 1])));
    out.join("\n")
}

pub fn picture(path: &Path, report: Option<&[i32]>, top: Option<&[i64]>, beside: &Beside, output: &Path, force: bool) -> Result<()> {
    let Card { name, table, .. } = read_for_question(path)?;
    let titles = Titles::read(beside)?;
    if ask::is_same_file(path, output) {
        return Err(problem::refused(format!("{name} is the card itself. Choose another name for the picture.")));
    }
    let queries = match (report, top) {
        (Some(r), _) => reports(&table, r)?,
        (None, Some(t)) => {
            let (x1, x2, k) = top_query(t).map_err(problem::refused)?;
            vec![Query { x1, x2, least: None, best: Some(k), found: table.top(x1, x2, k)? }]
        }
        (None, None) => vec![],
    };
    let svg = picture::draw(&name, &table, &queries, titles.as_ref())?;
    output::write(output, svg.as_bytes(), Kind::Picture, force)?;
    say(format!("{}: a picture of {name}.", words::name(output)))
}

/// A query for each three numbers. The blocks are those of all of them.
fn reports(table: &Table, numbers: &[i32]) -> Result<Vec<Query>> {
    let ranges: Vec<(i32, i32, i32)> = numbers.chunks_exact(3).map(|r| (r[0], r[1], r[2])).collect();
    let (each, blocks) = table.report_many(&ranges)?;
    let query = |((x1, x2, y), spots)| Query { x1, x2, least: Some(y), best: None, found: Found { spots, blocks: blocks.clone() } };
    Ok(ranges.into_iter().zip(each).map(query).collect())
}

#[cfg(test)]
mod tests {
    use super::*;
    use spot_reference::Way;

    #[test]
    fn a_verdict_without_its_reason_asks_for_a_report() {
        let fault = Fault { rule: 5, block: 3, bytes: 4..7, way: Way::Root, what: "x".into() };
        let faults = [fault];
        assert!(!verdict("a", true, &[]).contains("report"));
        assert!(!verdict("a", false, &faults).contains("report"));
        assert!(verdict("a", true, &faults).contains("Please report it"));
        assert!(verdict("a", false, &[]).contains("Please report it"));
    }
}
