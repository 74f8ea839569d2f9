//! The nodes of a sound table, and the spots that are live in it.

use crate::layout::{block, root};
use crate::{Key, Node};
use std::collections::BTreeMap;

/// A node, its block, and its range: from the first identity up to, and without, the second. None has no end.
pub struct Placed {
    pub block: usize,
    pub from: Option<Key>,
    pub to: Option<Key>,
    pub node: Node,
}

/// All nodes, a parent before its children, and children from left to right.
pub fn nodes(table: &[u8]) -> Vec<Placed> {
    let mut out = vec![];
    go(table, root(table), (None, None), &mut out);
    out
}

fn go(table: &[u8], b: usize, (from, to): (Option<Key>, Option<Key>), out: &mut Vec<Placed>) {
    let node = Node::read(block(table, b));
    let entries = node.entries.clone();
    out.push(Placed { block: b, from, to, node });
    for (j, e) in entries.iter().enumerate() {
        let begin = if j == 0 { from } else { e.low };
        let end = entries.get(j + 1).map_or(to, |f| f.low);
        go(table, e.block, (begin, end), out);
    }
}

/// The nodes that name an identity all lie on its path, so that the first of them in this order is the first on the path.
pub fn live(table: &[u8]) -> BTreeMap<Key, u32> {
    let mut named: BTreeMap<Key, Option<u32>> = BTreeMap::new();
    for Placed { node, .. } in nodes(table) {
        let spots = node.points.into_iter().chain(node.inserts);
        let deletes = node.deletes.into_iter().map(|k| (k, None));
        for (k, track) in spots.map(|(k, t)| (k, Some(t))).chain(deletes) {
            named.entry(k).or_insert(track);
        }
    }
    named.into_iter().filter_map(|(k, track)| Some((k, track?))).collect()
}
