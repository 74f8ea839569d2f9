//! What is left of a broken card: the spots of the blocks that are in order.

use super::{ask, say};
use crate::kind::Kind;
use crate::problem::{file, refused};
use crate::spot::{Key, Spot};
use crate::store::{is_tour, BLOCK, MOST_BLOCKS};
use crate::{output, words};
use anyhow::{Context, Result};
use spot_reference::{faults, in_limits, Node};
use std::collections::{BTreeMap, BTreeSet};
use std::path::Path;

pub fn salvage(path: &Path, output: &Path, force: bool) -> Result<()> {
    let (name, rest) = (words::name(path), words::name(output));
    if !std::fs::metadata(path).with_context(|| format!("{name} can't be read"))?.is_file() {
        return Err(file(format!("{name} is not a file.")));
    }
    let bytes = output::start_of(path).with_context(|| format!("{name} can't be read"))?;
    if is_tour(&bytes) {
        return Err(refused(format!("{name} is a pressed tour, not a card. Nothing was done. Press it again from the sheet.")));
    }
    if bytes.len() < 2 * BLOCK || bytes.len() > MOST_BLOCKS * BLOCK {
        return Err(refused(format!("{name} is not a card, nor a part of one: it has {}.", words::count(bytes.len(), "byte"))));
    }
    if ask::is_same_file(path, output) {
        return Err(refused(format!("{name} is the card itself. Choose another name for the sheet.")));
    }
    let found = Found::of(&bytes);
    let spots: Vec<Spot> = found.spots();
    output::write(output, ask::csv_of(&spots, None).as_bytes(), Kind::Sheet, force)?;
    let (count, blocks) = (words::count(spots.len(), "spot"), words::count(found.nodes.len(), "block"));
    let mut out = vec![format!("{rest}: {count} of the {blocks} of {name} that are in order.").replace("1 block of", "one block of")];
    out.extend(found.lost.iter().map(|what| format!("lost: {what}")));
    out.push(match found.lost.len() {
        0 => "Nothing is lost.".into(),
        _ => format!("What stood there is missing in {rest}; spots that it had withdrawn or given another track stand there as they were before. Look at them."),
    });
    say(out.join("\n"))
}

/// The nodes that are in order, and what is lost.
struct Found {
    nodes: Vec<Node>,
    lost: Vec<String>,
}

impl Found {
    fn of(bytes: &[u8]) -> Found {
        let mut walk = Walk { bytes, faults: reasons(bytes), seen: BTreeSet::new(), found: Found { nodes: vec![], lost: vec![] } };
        let is_head = bytes[4] == 1 && bytes[12] & 1 == 1;
        if is_head {
            let root = usize::from(u16::from_be_bytes([bytes[6], bytes[7]]));
            walk.visit(root, (None, None), "it is the root");
        } else {
            walk.found.lost.push("block 0, which says what blocks are in use: spots withdrawn long ago may be among these".into());
        }
        for block in 1..MOST_BLOCKS {
            let is_marked = bytes[12 + block / 8] >> (block % 8) & 1 == 1;
            let is_written = walk.block(block).is_some_and(|own| own.iter().any(|b| *b != 0));
            if is_head && is_marked || !is_head && is_written {
                walk.visit(block, (None, None), "no entry leads there any more");
            }
        }
        walk.found
    }

    /// The first node on a path that names an identity says what is with it: the one of the highest level.
    fn spots(&self) -> Vec<Spot> {
        let mut nodes: Vec<&Node> = self.nodes.iter().collect();
        nodes.sort_by_key(|node| std::cmp::Reverse(node.level));
        let mut named: BTreeMap<Key, Option<u32>> = BTreeMap::new();
        for node in nodes {
            let spots = node.points.iter().chain(&node.inserts).map(|(k, track)| (*k, Some(*track)));
            for (k, track) in spots.chain(node.deletes.iter().map(|k| (*k, None))) {
                named.entry(k.into()).or_insert(track);
            }
        }
        named.into_iter().filter_map(|(k, track)| Some(Spot { place: k.place, rank: k.rank, track: track? })).collect()
    }
}

/// For a block, the first fault that is found in it.
fn reasons(bytes: &[u8]) -> BTreeMap<usize, String> {
    if !crate::store::is_length(bytes.len() as u64) {
        return BTreeMap::new();
    }
    faults(bytes).iter().rev().map(|fault| (fault.block, fault.to_string())).collect()
}

type Range = (Option<(i32, i32)>, Option<(i32, i32)>);

struct Walk<'a> {
    bytes: &'a [u8],
    faults: BTreeMap<usize, String>,
    seen: BTreeSet<usize>,
    found: Found,
}

impl Walk<'_> {
    fn block(&self, block: usize) -> Option<&[u8]> {
        self.bytes.get(BLOCK * block..BLOCK * (block + 1))
    }

    /// Takes the block and those below it, if it is in order and its identities lie in the range.
    fn visit(&mut self, block: usize, (from, to): Range, way: &str) {
        if block == 0 || !self.seen.insert(block) {
            return;
        }
        let Some(own) = self.block(block) else {
            self.found.lost.push(format!("block {block}, behind the end of the file ({way})"));
            return;
        };
        let is_inside = |k: &(i32, i32)| from.is_none_or(|from| from <= *k) && to.is_none_or(|to| *k < to);
        let node = in_order(own).then(|| Node::read(own)).filter(|node| identities(node).iter().all(is_inside));
        let Some(node) = node else {
            let what = self.faults.get(&block).cloned().unwrap_or_else(|| format!("block {block}, which is not in order"));
            self.found.lost.push(format!("{what} ({way})"));
            return;
        };
        let entries = node.entries.clone();
        self.found.nodes.push(node);
        for (j, entry) in entries.iter().enumerate() {
            let begin = if j == 0 { from } else { entry.low };
            let end = entries.get(j + 1).map_or(to, |next| next.low);
            let way = format!("by its parent, block {block}, it had {} and what stands below them", words::count(entry.size, "spot"));
            self.visit(entry.block, (begin, end), &way);
        }
    }
}

fn identities(node: &Node) -> Vec<(i32, i32)> {
    node.points.keys().chain(node.inserts.keys()).chain(&node.deletes).copied().collect()
}

/// Whether a block is a node as far as it shows by itself: its sizes, its order, the limits of places, and zeros behind what is used.
fn in_order(block: &[u8]) -> bool {
    let [level, points, inserts, deletes, children] = [3, 4, 5, 6, 7].map(|i| usize::from(block[i]));
    let lists = 8 + 28 * children;
    let used = lists + 12 * (points + inserts) + 8 * deletes;
    let is_sized = points <= 64 && inserts <= 64 && deletes <= 16 && children <= 8 && (level == 0) == (children == 0);
    if !is_sized || used > BLOCK || block[2] != 1 || usize::from(u16::from_be_bytes([block[0], block[1]])) != used {
        return false;
    }
    let word = |at: usize| i32::from_be_bytes([block[at], block[at + 1], block[at + 2], block[at + 3]]);
    let list =
        |at: usize, count: usize, step: usize| (0..count).map(|i| (word(at + step * i), word(at + step * i + 4))).collect::<Vec<_>>();
    let all = [list(lists, points, 12), list(lists + 12 * points, inserts, 12), list(used - 8 * deletes, deletes, 8)];
    let is_rising = all.iter().all(|keys| keys.windows(2).all(|two| two[0] < two[1]));
    let keys = all.concat();
    let is_once = keys.iter().collect::<BTreeSet<_>>().len() == keys.len();
    is_rising && is_once && keys.iter().all(|k| in_limits(k.0)) && block[used..].iter().all(|b| *b == 0)
}
