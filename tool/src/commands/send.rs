//! Changes that are sent: written as a file, and carried out on a card as one.

use super::change::{full, save};
use super::import::after;
use super::{ask, say};
use crate::card::{self, Card};
use crate::changes::{self, Changes};
use crate::kind::Kind;
use crate::problem::{self, refused};
use crate::sheet::{self, Names, Sheet};
use crate::spot::{Key, Spot};
use crate::store::{Change, Refusal, Table, MOST_BLOCKS, SPOTS_A_BLOCK};
use crate::{output, words};
use anyhow::Result;
use std::collections::{BTreeMap, BTreeSet};
use std::path::Path;
use std::time::Duration;

pub fn send(old: &Path, new: &Path, names: &Names, output: &Path, force: bool) -> Result<()> {
    let sheets = [sheet::read(old, names)?, sheet::read(new, names)?];
    sheets.iter().try_for_each(judge_number)?;
    let name = words::name(output);
    if [old, new].iter().any(|sheet| ask::is_same_file(sheet, output)) {
        return Err(refused(format!("{name} is one of the sheets. Choose another name for the file of changes.")));
    }
    let [old, new] = sheets.each_ref().map(|sheet| sheet.rows.iter().map(|row| row.spot).collect::<Vec<Spot>>());
    let list = changes::between(&old, &new);
    let messages = changes::messages(&list)?;
    let bytes: Vec<u8> = messages.iter().flat_map(|m| m.bytes()).copied().collect();
    output::write(output, &bytes, Kind::Changes, force)?;
    let [from, to] = sheets.each_ref().map(|sheet| &sheet.name);
    let (changes, effect) = (words::count(list.len(), "change"), Effect::of(&spots(&old), &spots(&new)).words());
    let size = format!("{} of {}", words::count(messages.len(), "message"), words::count(bytes.len(), "byte"));
    say(format!("{name}: {changes} from {from} to {to}: {effect}; {size}."))
}

/// No card holds more.
fn judge_number(sheet: &Sheet) -> Result<()> {
    let most = SPOTS_A_BLOCK * (MOST_BLOCKS - 1);
    if sheet.rows.len() <= most {
        return Ok(());
    }
    let (name, rows) = (&sheet.name, words::count(sheet.rows.len(), "row"));
    Err(refused(format!("{name} has {rows}, and no card holds more than {}. Nothing was changed.", words::number(most as i128))))
}

pub fn apply(path: &Path, changes: &Path, is_dry: bool, wait: Duration) -> Result<()> {
    let sent = changes::read(changes)?;
    let writer = if is_dry { None } else { Some(card::lock(path, wait)?) };
    let Card { name, mut table, .. } = writer.as_ref().map_or_else(|| card::read_unchanged(path), |w| w.read())?;
    let before = spots(&table.all()?);
    apply_all(&sent, &name, &mut table, &before)?;
    let effect = Effect::of(&before, &spots(&table.all()?));
    let changes = format!("{name}: {} of {}", words::count(sent.count(), "change"), sent.name);
    if effect.is_none() {
        return say(format!("{changes}: the card holds all that they ask for already; nothing changes."));
    }
    if let Some(writer) = &writer {
        save(writer, &table)?;
    }
    if let Some(words) = other_card(&sent, &name, &before) {
        problem::print(&words);
    }
    say(format!("{changes}: {}; {}.", effect.words(), after(&table, is_dry)?))
}

/// So many spots are named that show that a card is not the sender's.
const MOST_ODD: usize = 5;

/// What shows that the changes were made for another card: withdrawals of what isn't there, additions of what is.
fn other_card(sent: &Changes, name: &str, before: &BTreeMap<Key, u32>) -> Option<String> {
    let mut tracks = before.clone();
    let (mut gone, mut there) = (vec![], vec![]);
    for change in sent.all() {
        match change {
            Change::Withdraw(key) if tracks.remove(&key).is_none() => gone.push(key),
            Change::Add(spot) if tracks.insert(spot.key(), spot.track) == Some(spot.track) => there.push(spot.key()),
            _ => {}
        }
    }
    let listed = |keys: &[Key], what: &str| {
        let names: Vec<String> = keys.iter().take(MOST_ODD).map(Key::to_string).collect();
        let more = if keys.len() > MOST_ODD { ", ..." } else { "" };
        (!keys.is_empty()).then(|| format!("{} ({}{more})", words::count(keys.len(), what), names.join(", ")))
    };
    let gone = listed(&gone, "withdrawal").map(|words| format!("{words} of what isn't there"));
    let there = listed(&there, "addition").map(|words| format!("{words} of what is there already"));
    let odd: Vec<String> = [gone, there].into_iter().flatten().collect();
    (!odd.is_empty()).then(|| format!("{name} is not the card that {} was made for: {}.", sent.name, odd.join(", ")))
}

fn spots(list: &[Spot]) -> BTreeMap<Key, u32> {
    list.iter().map(|s| (s.key(), s.track)).collect()
}

/// The table is no longer used after a refusal: the card stays as it is.
fn apply_all(sent: &Changes, name: &str, table: &mut Table, before: &BTreeMap<Key, u32>) -> Result<()> {
    let mut done = 0;
    for message in &sent.messages {
        if let Err((refusal, at)) = table.apply(message) {
            if refusal != Refusal::Full {
                return Err(refusal.into());
            }
            let (number, all) = (words::number((done + at + 1) as i128), words::number(sent.count() as i128));
            let full = full(name, table, missing(sent, before, table.capacity()));
            let what = format!("change {number} of {all}, {}, finds no room", message.changes[at]);
            return Err(refused(format!("{}: {what}. {full} Nothing was changed.", sent.name)));
        }
        done += message.changes.len();
    }
    Ok(())
}

/// How many more spots a card would have to hold for all changes to find room.
fn missing(sent: &Changes, before: &BTreeMap<Key, u32>, capacity: usize) -> usize {
    let mut there: BTreeSet<Key> = before.keys().copied().collect();
    let mut most = there.len();
    for change in sent.all() {
        match change {
            Change::Add(spot) => there.insert(spot.key()),
            Change::Withdraw(key) => there.remove(&key),
        };
        most = most.max(there.len());
    }
    most - capacity
}

/// What is different afterwards.
struct Effect {
    new: usize,
    other: usize,
    gone: usize,
}

impl Effect {
    fn of(before: &BTreeMap<Key, u32>, after: &BTreeMap<Key, u32>) -> Effect {
        let new = after.keys().filter(|k| !before.contains_key(k)).count();
        let other = after.iter().filter(|(k, track)| before.get(k).is_some_and(|old| old != *track)).count();
        Effect { new, other, gone: before.len() + new - after.len() }
    }

    fn is_none(&self) -> bool {
        self.new + self.other + self.gone == 0
    }

    fn words(&self) -> String {
        let [new, other, gone] = [self.new, self.other, self.gone].map(|n| words::number(n as i128));
        format!("{new} new, {other} with another track, {gone} withdrawn")
    }
}
