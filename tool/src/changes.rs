//! Files of changes: a message of the library, or several one behind the other. Read whole and judged before any of it is used.

use crate::input;
use crate::problem::refused;
use crate::sheet::is_card;
use crate::spot::{Key, Spot};
use crate::store::{is_tour, Change, Message, Refusal, MESSAGE_HEAD, MOST_CHANGES};
use crate::words;
use anyhow::Result;
use std::collections::BTreeMap;
use std::path::Path;

/// Far more than any file of changes has.
const MOST_BYTES: u64 = 32 << 20;

pub struct Changes {
    pub name: String,
    pub messages: Vec<Message>,
}

impl Changes {
    pub fn count(&self) -> usize {
        self.messages.iter().map(|m| m.changes.len()).sum()
    }

    pub fn all(&self) -> impl Iterator<Item = Change> + '_ {
        self.messages.iter().flat_map(|m| m.changes.iter().copied())
    }
}

/// What turns the spots of one sheet into those of another. Withdrawals come first: the card is never fuller on the way than before or after.
pub fn between(old: &[Spot], new: &[Spot]) -> Vec<Change> {
    let tracks = |spots: &[Spot]| spots.iter().map(|s| (s.key(), s.track)).collect::<BTreeMap<Key, u32>>();
    let (old, new) = (tracks(old), tracks(new));
    let gone = old.keys().filter(|k| !new.contains_key(k)).map(|k| Change::Withdraw(*k));
    let other = new.iter().filter(|(k, track)| old.get(k) != Some(track));
    gone.chain(other.map(|(k, track)| Change::Add(Spot { place: k.place, rank: k.rank, track: *track }))).collect()
}

/// The messages of the changes: one, or as many as they need.
pub fn messages(changes: &[Change]) -> Result<Vec<Message>, Refusal> {
    if changes.is_empty() {
        return Ok(vec![Message::write(&[])?]);
    }
    changes.chunks(MOST_CHANGES).map(Message::write).collect()
}

pub fn read(path: &Path) -> Result<Changes> {
    let name = input::name(path);
    let bytes = input::read(path)?;
    match split(&bytes) {
        Ok(messages) => Ok(Changes { name, messages }),
        Err(_) if is_card(&bytes) => {
            Err(refused(format!("{name} is a card, not a file of changes. The order is: apply CARD CHANGES. Nothing was changed.")))
        }
        Err(_) if is_tour(&bytes) => Err(refused(format!("{name} is a pressed tour, not a file of changes. Nothing was changed."))),
        Err(what) => Err(refused(format!("{name} {what} Nothing was changed."))),
    }
}

/// The same for a command that takes other files, too: nothing where the file is none of changes.
pub fn read_if_changes(path: &Path) -> Result<Option<Changes>> {
    let is_short = std::fs::metadata(path).is_ok_and(|about| about.is_file() && about.len() <= MOST_BYTES);
    if !is_short {
        return Ok(None);
    }
    let (name, bytes) = (input::name(path), input::read(path)?);
    Ok(split(&bytes).ok().map(|messages| Changes { name, messages }))
}

/// The messages that stand one behind the other, or what is wrong.
pub fn split(bytes: &[u8]) -> Result<Vec<Message>, String> {
    let (mut out, mut at, mut before) = (vec![], 0, 0);
    while at < bytes.len() || out.is_empty() {
        let left = &bytes[at..];
        let begin = if at == 0 { String::new() } else { format!(" from byte {} on", words::number(at as i128)) };
        let Some(length) = left.first_chunk().map(|four| u32::from_be_bytes(*four) as usize).filter(|n| *n >= MESSAGE_HEAD) else {
            return Err(format!("is no file of changes, or only a part of one: no message stands there{begin}."));
        };
        let Some(own) = left.get(..length) else {
            return Err(format!(
                "is no file of changes, or only a part of one: a message of {} bytes should stand there{begin}, and there are {}.",
                words::number(length as i128),
                words::number(left.len() as i128)
            ));
        };
        let message = Message::read(own).map_err(|(refusal, position)| match refusal {
            Refusal::Place => {
                format!("has a change that can't be: of change {}, {refusal}.", words::number((before + position + 1) as i128))
            }
            _ => format!("is no file of changes, or a damaged one: what stands there{begin} is no message."),
        })?;
        before += message.changes.len();
        at += length;
        out.push(message);
    }
    Ok(out)
}

#[cfg(test)]
mod tests {
    use super::*;

    fn spot(place: i32, track: u32) -> Spot {
        Spot { place, rank: 7, track }
    }

    fn file(changes: &[Change]) -> Vec<u8> {
        messages(changes).unwrap().iter().flat_map(|m| m.bytes().to_vec()).collect()
    }

    #[test]
    fn withdrawals_come_first() {
        let (old, new) = ([spot(5, 1), spot(3, 1), spot(1, 1)], [spot(3, 2), spot(0, 9), spot(5, 1)]);
        let due = [Change::Withdraw(spot(1, 0).key()), Change::Add(spot(0, 9)), Change::Add(spot(3, 2))];
        assert_eq!(between(&old, &new), due);
        assert_eq!(between(&old, &old), []);
    }

    #[test]
    fn as_many_messages_as_are_needed() {
        for (n, count, bytes) in [(0, 1, 7), (1, 1, 20), (4096, 1, 53_255), (4097, 2, 53_255 + 20), (10_000, 3, 3 * 7 + 130_000)] {
            let changes: Vec<Change> = (0..n).map(|place| Change::Add(spot(place, 1))).collect();
            let whole = file(&changes);
            let back = split(&whole).unwrap();
            assert_eq!((back.len(), whole.len()), (count, bytes), "{n}");
            assert_eq!(back.iter().flat_map(|m| m.changes.clone()).collect::<Vec<_>>(), changes);
        }
    }

    #[test]
    fn what_is_no_file_of_changes_is_said() {
        let whole = file(&[Change::Add(spot(1, 1)), Change::Withdraw(spot(2, 0).key())]);
        let two = [whole.clone(), whole.clone()].concat();
        assert_eq!(split(&two).unwrap().len(), 2);
        for cut in 0..whole.len() {
            assert!(split(&whole[..cut]).is_err() && (cut == 0 || split(&two[..whole.len() + cut]).is_err()), "{cut}");
        }
        let mut other = two.clone();
        other[whole.len() + 7] = 3;
        assert_eq!(split(&other).unwrap_err(), "is no file of changes, or a damaged one: what stands there from byte 29 on is no message.");
        let mut beyond = two;
        beyond[whole.len() + 8] = 64;
        assert!(split(&beyond).unwrap_err().contains("of change 3, a place has to lie from -1000000 to 1000000 cm"));
    }
}
