//! Messages read plainly by the words of request 2026-06: bytes of lists of changes, and the numbers that writer, reader and application answer.

use crate::histories::{by_lengths, Change, Live};
use crate::layout::{key, track, KEY, SPOT};
use crate::{in_limits, Key};

/// The most changes of a message.
pub const MOST_CHANGES: usize = 4096;
/// Bytes of a change in a list.
pub const ROW: usize = 1 + SPOT;
/// Bytes of a message before its changes.
pub const HEAD: usize = 7;

fn push_key(out: &mut Vec<u8>, k: Key) {
    out.extend(k.0.to_be_bytes().into_iter().chain(k.1.to_be_bytes()));
}

fn push(out: &mut Vec<u8>, c: Change, fill: usize) {
    match c {
        Change::Add(k, t) => {
            out.push(1);
            push_key(out, k);
            out.extend(t.to_be_bytes());
        }
        Change::Withdraw(k) => {
            out.push(2);
            push_key(out, k);
            out.resize(out.len() + fill, 0);
        }
    }
}

/// 13 bytes a change, withdrawals filled up with zeros.
pub fn list_of(changes: &[Change]) -> Vec<u8> {
    let mut out = vec![];
    changes.iter().for_each(|c| push(&mut out, *c, SPOT - KEY));
    out
}

/// The message of the changes, of which there are at most 65,535.
pub fn message_of(changes: &[Change]) -> Vec<u8> {
    let mut body = vec![];
    changes.iter().for_each(|c| push(&mut body, *c, 0));
    let mut out = ((HEAD + body.len()) as u32).to_be_bytes().to_vec();
    out.push(1);
    out.extend((changes.len() as u16).to_be_bytes());
    out.extend(body);
    out
}

/// The changes of a message, if it is one.
pub fn changes_of(message: &[u8]) -> Option<Vec<Change>> {
    let (head, mut left) = message.split_at_checked(HEAD)?;
    let n = usize::from(head[5]) << 8 | usize::from(head[6]);
    if u32::from_be_bytes(head[..4].try_into().unwrap()) as usize != message.len() || head[4] != 1 || n > MOST_CHANGES {
        return None;
    }
    let mut out = vec![];
    for _ in 0..n {
        let (kind, rest) = left.split_first()?;
        let size = match kind {
            1 => SPOT,
            2 => KEY,
            _ => return None,
        };
        let (change, behind) = rest.split_at_checked(size)?;
        out.push(if *kind == 1 { Change::Add(key(change), track(&change[KEY..])) } else { Change::Withdraw(key(change)) });
        left = behind;
    }
    left.is_empty().then_some(out)
}

/// The changes of a list, if it is one.
pub fn changes_in(list: &[u8]) -> Option<Vec<Change>> {
    if list.len() % ROW != 0 || list.len() > ROW * MOST_CHANGES {
        return None;
    }
    let row = |row: &[u8]| match (row[0], track(&row[1 + KEY..])) {
        (1, t) => Some(Change::Add(key(&row[1..]), t)),
        (2, 0) => Some(Change::Withdraw(key(&row[1..]))),
        _ => None,
    };
    list.chunks(ROW).map(row).collect()
}

/// 9 with the position of the first change whose place lies outside the limits.
fn outside(changes: &[Change]) -> Option<(u32, u32)> {
    changes.iter().position(|c| !in_limits(c.key().0)).map(|n| (9, n as u32))
}

/// What writer or reader answers where so many bytes are needed for the changes and so many are lent: 8, 2, 9, or 0.
pub fn told(changes: Option<&[Change]>, needed: impl Fn(&[Change]) -> usize, lent: usize) -> (u32, u32) {
    match changes {
        None => (8, 0),
        Some(c) if lent < needed(c) => (2, 0),
        Some(c) => outside(c).unwrap_or((0, 0)),
    }
}

impl Live {
    /// The answer to a message, by the plain list alone: 1, 2, 8, 9, 4, or 0, after which the list has changed.
    pub fn apply_message(&mut self, changes: Option<&[Change]>, table: usize, work: usize) -> (u32, u32) {
        let early = by_lengths(table, work);
        if early != 0 {
            return (early, 0);
        }
        let Some(changes) = changes else { return (8, 0) };
        if let Some(answer) = outside(changes) {
            return answer;
        }
        let mut after = self.clone();
        for (i, c) in changes.iter().enumerate() {
            let number = after.apply(*c, table, work);
            if number != 0 {
                return (number, i as u32);
            }
        }
        *self = after;
        (0, 0)
    }
}
