//! What each command does.

mod ask;
mod change;
mod diff;
mod import;
mod info;
mod look;
mod salvage;
mod send;
mod tour;

use crate::args::{more_spots, Command};
use crate::card::{Card, Held};
use crate::digest::Digest;
use crate::problem;
use crate::spot::Spot;
use anyhow::Result;
use std::io::Write;

pub fn run(command: Command) -> Result<()> {
    match command {
        Command::New { card, blocks, force, wait } => change::new(&card, blocks, force, wait.time()),
        Command::Import { sheet, card, replace, yes, dry_run, columns, wait } => {
            let how = import::How { is_replace: replace, is_sure: yes, is_dry: dry_run };
            import::import(&sheet, &columns.names(), &card, how, wait.time())
        }
        Command::Send { old, new, output, columns, force } => send::send(&old, &new, &columns.names(), &output, force),
        Command::Apply { card, changes, dry_run, wait } => send::apply(&card, &changes, dry_run, wait.time()),
        Command::Add { card, spot, track, more, wait } => {
            let mut spots = vec![Spot { place: spot.place, rank: spot.rank, track }];
            spots.extend(more_spots(&more).map_err(problem::refused)?);
            change::add(&card, &spots, wait.time())
        }
        Command::Withdraw { card, spot, track, wait } => change::withdraw(&card, &spot, track, wait.time()),
        Command::Undo { card, wait } => change::undo(&card, wait.time()),
        Command::Rebuild { card, wait } => change::rebuild(&card, wait.time()),
        Command::Export { card, output, force } => ask::export(&card, output.as_deref(), force),
        Command::Diff { one, other, csv, columns } => diff::diff(&one, &other, &columns.names(), csv),
        Command::Report { card, wanted, more, shape, beside } => ask::report(&card, &wanted.and_more(&more), &shape, &beside),
        Command::Top { card, range, k, allow, shape, beside } => ask::top(&card, &range, (k, allow), &shape, &beside),
        Command::Press { sheet, output, columns, force, wait } => tour::press(&sheet, &columns.names(), &output, force, wait.time()),
        Command::Info { card } => info::info(&card),
        Command::Check { card } => look::check(&card),
        Command::Salvage { card, output, force } => salvage::salvage(&card, &output, force),
        Command::Picture { card, report, top, beside, output, force } => {
            look::picture(&card, report.as_deref(), top.as_deref(), &beside, &output, force)
        }
    }
}

/// Prints to standard output.
fn say(text: impl AsRef<str>) -> Result<()> {
    let mut out = std::io::stdout().lock();
    out.write_all(text.as_ref().as_bytes())?;
    out.write_all(b"\n")?;
    Ok(out.flush()?)
}

/// A sound card for a question. One whose digest differs is answered for, with a warning.
fn read_for_question(path: &std::path::Path) -> Result<Card> {
    let card = crate::card::read_sound(path)?;
    warn(&card.name, card.digest, &card.digest_name);
    Ok(card)
}

/// The same for a question that a pressed tour answers, too.
fn read_any_for_question(path: &std::path::Path) -> Result<Held> {
    let held = crate::card::read_any_sound(path)?;
    warn(held.name(), held.digest(), held.digest_name());
    Ok(held)
}

fn warn(name: &str, digest: Digest, digest_name: &str) {
    if digest == Digest::Differs {
        problem::print(&format!(
            "warning: {name} is not as spotcard left it: its digest is not the one in {digest_name}. Track numbers may be wrong."
        ));
    }
}
