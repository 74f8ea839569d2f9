//! Commands that change a card: locked, in memory, checked, then replaced as one.

use super::say;
use crate::args::PlaceAndRank;
use crate::card::{self, Card, Writer};
use crate::kind::Kind;
use crate::problem::refused;
use crate::spot::{Key, Spot};
use crate::store::{Change, Message, Refusal, Table, MOST_BLOCKS, MOST_CHANGES, SPOTS_A_BLOCK};
use crate::{tree, words};
use anyhow::Result;
use std::collections::{HashMap, HashSet};
use std::path::Path;
use std::time::Duration;

pub fn new(path: &Path, blocks: usize, force: bool, wait: Duration) -> Result<()> {
    let writer = card::lock_new(path, force, Kind::Card, wait)?;
    let table = Table::empty(blocks)?;
    save(&writer, &table)?;
    let name = words::name(path);
    let (blocks, room) = (words::number(blocks as i128), words::count(table.capacity(), "spot"));
    say(format!("{name}: an empty card of {blocks} blocks, with room for {room}."))
}

/// The last look before a card is replaced.
pub fn save(writer: &Writer, table: &Table) -> Result<()> {
    if !table.is_sound()? {
        return Err(refused(
            "the changed card would not be sound, so it was not saved. This must not happen: please report it, with the card and \
            the command.",
        ));
    }
    writer.save(table.bytes())
}

/// One spot, or several as one change.
pub fn add(path: &Path, spots: &[Spot], wait: Duration) -> Result<()> {
    judge_once(spots)?;
    let writer = card::lock(path, wait)?;
    let Card { name, mut table, .. } = writer.read()?;
    if let [spot] = spots {
        return add_one(&writer, &name, table, *spot);
    }
    let old: HashMap<Key, u32> = table.all()?.iter().map(|s| (s.key(), s.track)).collect();
    let there = spots.iter().filter(|s| old.get(&s.key()) == Some(&s.track)).count();
    let news: Vec<&Spot> = spots.iter().filter(|s| !old.contains_key(&s.key())).collect();
    let room = table.capacity() - old.len();
    if let Some(spot) = news.get(room) {
        let full = full(&name, &table, news.len() - room);
        return Err(refused(format!("no room for {}. {full} Nothing was changed.", spot.key())));
    }
    if there < spots.len() {
        for part in spots.chunks(MOST_CHANGES) {
            let changes: Vec<Change> = part.iter().map(|spot| Change::Add(*spot)).collect();
            table.apply(&Message::write(&changes)?).map_err(|(refusal, _)| refusal)?;
        }
        save(&writer, &table)?;
    }
    let [all, new, other, there] = [spots.len(), news.len(), spots.len() - news.len() - there, there].map(|n| words::number(n as i128));
    say(format!("{name}: {all} spots: {new} new, {other} with another track, {there} on the card already; {}.", filling(&table)?))
}

fn judge_once(spots: &[Spot]) -> Result<()> {
    let mut seen = HashSet::new();
    match spots.iter().find(|spot| !seen.insert(spot.key())) {
        Some(spot) => Err(refused(format!("{} is given twice. Nothing was changed.", spot.key()))),
        None => Ok(()),
    }
}

fn add_one(writer: &Writer, name: &str, mut table: Table, spot: Spot) -> Result<()> {
    let (old, track) = (table.spot(spot.key())?, spot.track);
    if old == Some(spot) {
        return say(format!("{name} has {} with track {track} already; nothing changes.", spot.key()));
    }
    match table.add(spot) {
        Err(Refusal::Full) => return Err(refused(format!("{} Nothing was changed.", full(name, &table, 1)))),
        other => other?,
    }
    save(writer, &table)?;
    let what = match old {
        Some(old) => format!("replaced {}: track {} is now {track}", spot.key(), old.track),
        None => format!("added {} track {track}", spot.key()),
    };
    say(format!("{name}: {what}; {}.", filling(&table)?))
}

pub fn withdraw(path: &Path, spot: &PlaceAndRank, track: Option<u32>, wait: Duration) -> Result<()> {
    let key = Key { place: spot.place, rank: spot.rank };
    let writer = card::lock(path, wait)?;
    let Card { name, mut table, .. } = writer.read()?;
    let Some(old) = table.spot(key)? else {
        return say(format!("{name} has no spot of {key}; nothing changes."));
    };
    if let Some(track) = track.filter(|track| *track != old.track) {
        return Err(refused(format!("{name} has {key} with track {}, not {track}. Nothing was changed.", old.track)));
    }
    table.withdraw(key)?;
    save(&writer, &table)?;
    say(format!("{name}: withdrew {key} track {}; {}.", old.track, filling(&table)?))
}

pub fn rebuild(path: &Path, wait: Duration) -> Result<()> {
    let writer = card::lock(path, wait)?;
    let Card { name, mut table, .. } = writer.read()?;
    let before = table.bytes().to_vec();
    table.rebuild()?;
    if table.bytes() != before {
        save(&writer, &table)?;
    }
    let blocks = |bytes: &[u8]| words::number(tree::nodes(bytes).len() as i128 + 1);
    let waited: usize = tree::nodes(&before).iter().map(|n| n.waiting()).sum();
    say(format!(
        "{name}: laid out anew; {} carried out, {} blocks in use (before: {}); {}.",
        words::count(waited, "waiting change"),
        blocks(table.bytes()),
        blocks(&before),
        filling(&table)?
    ))
}

/// The card before the last change and the card change places.
pub fn undo(path: &Path, wait: Duration) -> Result<()> {
    let writer = card::lock(path, wait)?;
    let before = writer.before()?;
    let name = words::name(path);
    if writer.holds(before.bytes()) {
        return say(format!("{name} is as it was before the last change already; nothing changes."));
    }
    writer.save(before.bytes())?;
    let spots = words::count(before.all()?.len(), "spot");
    say(format!("{name}: as it was before the last change, with {spots}; `spotcard undo {name}` takes this back."))
}

/// What to do about a full card on which `more` spots find no room.
pub fn full(name: &str, table: &Table, more: usize) -> String {
    let capacity = words::count(table.capacity(), "spot");
    let blocks = (table.capacity() + more).div_ceil(SPOTS_A_BLOCK) + 1;
    let start = format!("{name} is full with {capacity}, and {} more would have to find room.", words::number(more as i128));
    if blocks > MOST_BLOCKS {
        return format!("{start} No card holds more than 65,520.");
    }
    format!(
        "{start} A larger card: `spotcard new LARGER --blocks {blocks}` (at most {MOST_BLOCKS}); `spotcard export {name} -o \
    all.csv` and `spotcard import all.csv LARGER` bring these spots onto it."
    )
}

pub fn filling(table: &Table) -> Result<String> {
    let (live, capacity) = (table.count()?, table.capacity());
    Ok(format!("it holds {} of {} spots", words::number(live as i128), words::number(capacity as i128)))
}
