//! How large and how full a card or a tour is.

use super::{read_any_for_question, say};
use crate::card::{Card, Held, Pressed};
use crate::changes::{self, Changes};
use crate::digest::Digest;
use crate::store::{Change, TOUR_SPOTS};
use crate::tree::{self, Node};
use crate::words;
use anyhow::Result;
use std::path::Path;

pub fn info(path: &Path) -> Result<()> {
    let rows = match changes::read_if_changes(path)? {
        Some(changes) => of_changes(&changes),
        None => match read_any_for_question(path)? {
            Held::Card(card) => of_card(&card)?,
            Held::Tour(pressed) => of_tour(&pressed)?,
        },
    };
    let lines: Vec<String> = rows.iter().map(|(a, b)| format!("{a:<16} {b}")).collect();
    say(lines.join("\n"))
}

fn of_card(card: &Card) -> Result<Vec<(String, String)>> {
    let nodes = tree::nodes(card.table.bytes());
    let levels = tree::levels(card.table.bytes());
    let mut rows = whole(card, &nodes, levels)?;
    rows.extend((0..levels).rev().map(|level| of_level(&nodes, level, levels)));
    Ok(rows)
}

fn of_changes(changes: &Changes) -> Vec<(String, String)> {
    let adds = changes.all().filter(|c| matches!(c, Change::Add(_))).count();
    let bytes = changes.messages.iter().map(|m| m.bytes().len()).sum();
    let messages = format!("{} of {}", words::count(changes.messages.len(), "message"), words::count(bytes, "byte"));
    let rows = [
        ("file of changes", changes.name.clone()),
        ("messages", messages),
        ("additions", n(adds)),
        ("withdrawals", n(changes.count() - adds)),
        ("digest", "none: a message has no seal".into()),
    ];
    rows.map(|(name, what)| (name.to_string(), what)).to_vec()
}

fn of_tour(pressed: &Pressed) -> Result<Vec<(String, String)>> {
    let Pressed { name, tour, digest, digest_name } = pressed;
    let spots = tour.all()?.len();
    let digest = match digest {
        Digest::Same => format!("the tour is as {digest_name} has it"),
        Digest::Differs => format!("NOT as {digest_name} has it"),
        Digest::None => format!("none: there is no {digest_name}"),
    };
    let rows = [
        ("pressed tour", name.clone()),
        ("blocks", format!("{} of 2,048 bytes ({} bytes)", n(tour.blocks()), n(tour.bytes().len()))),
        ("spots", format!("{} of at most {}", n(spots), n(TOUR_SPOTS))),
        ("digest", digest),
    ];
    Ok(rows.map(|(name, what)| (name.to_string(), what)).to_vec())
}

fn n(n: usize) -> String {
    words::number(n as i128)
}

fn whole(card: &Card, nodes: &[Node], levels: usize) -> Result<Vec<(String, String)>> {
    let table = &card.table;
    let (live, capacity) = (table.count()?, table.capacity());
    let percent = 100.0 * live as f64 / capacity as f64;
    let used = words::count(nodes.len(), "node");
    let rows = [
        ("card", card.name.clone()),
        ("blocks", format!("{} of 2,048 bytes ({} bytes)", n(table.blocks()), n(table.bytes().len()))),
        ("blocks in use", format!("{} (block 0 and {used})", n(nodes.len() + 1))),
        ("levels", n(levels)),
        ("spots", format!("{} of {} ({percent:.1} %)", n(live), n(capacity))),
        ("waiting changes", waiting(nodes)),
        ("digest", digest(card)),
    ];
    Ok(rows.map(|(name, what)| (name.to_string(), what)).to_vec())
}

fn waiting(nodes: &[Node]) -> String {
    let adds: usize = nodes.iter().map(|n| n.inserts.len()).sum();
    let takes: usize = nodes.iter().map(|n| n.deletes.len()).sum();
    if adds + takes == 0 {
        return "none".into();
    }
    let busy = nodes.iter().filter(|n| n.waiting() > 0).count();
    let [adds, takes, busy] = [(adds, "addition"), (takes, "withdrawal"), (busy, "node")].map(|(n, what)| words::count(n, what));
    format!("{adds} and {takes} in {busy}")
}

fn digest(card: &Card) -> String {
    let name = &card.digest_name;
    match card.digest {
        Digest::Same => format!("the card is as {name} has it"),
        Digest::Differs => format!("NOT as {name} has it"),
        Digest::None => "none yet; the first change makes one".into(),
    }
}

fn of_level(nodes: &[Node], level: usize, levels: usize) -> (String, String) {
    let here = || nodes.iter().filter(move |n| n.level == level);
    let points = words::count(here().map(|n| n.points.len()).sum(), "spot");
    let waiting = words::count(here().map(|n| n.waiting()).sum(), "waiting change");
    let name = if level + 1 == levels { " (root)" } else { "" };
    let what = format!("{}, {points} settled, {waiting}", words::count(here().count(), "node"));
    (format!("level {level}{name}"), what)
}
