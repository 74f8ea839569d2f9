//! The nodes of a sound table, for what is shown of it. What is live is the library's to say.

use crate::spot::Key;
use spot_reference::Placed;
use std::collections::HashMap;

pub struct Node {
    pub block: usize,
    pub level: usize,
    /// The range: from the first identity up to, and without, the second. None has no end.
    pub from: Option<Key>,
    pub to: Option<Key>,
    pub points: Vec<Key>,
    pub inserts: Vec<Key>,
    pub deletes: Vec<Key>,
}

impl Node {
    fn of(placed: Placed) -> Node {
        let Placed { block, from, to, node } = placed;
        Node {
            block,
            level: node.level as usize,
            from: from.map(Key::from),
            to: to.map(Key::from),
            points: node.points.into_keys().map(Key::from).collect(),
            inserts: node.inserts.into_keys().map(Key::from).collect(),
            deletes: node.deletes.into_iter().map(Key::from).collect(),
        }
    }

    pub fn waiting(&self) -> usize {
        self.inserts.len() + self.deletes.len()
    }
}

/// Where a live spot lies.
#[derive(Clone, Copy, Debug, PartialEq, Eq)]
pub struct Home {
    pub block: usize,
    pub level: usize,
    /// In I, not in P.
    pub is_waiting: bool,
}

pub fn levels(table: &[u8]) -> usize {
    table[5] as usize
}

/// All nodes, a parent before its children, and children from left to right.
pub fn nodes(table: &[u8]) -> Vec<Node> {
    spot_reference::nodes(table).into_iter().map(Node::of).collect()
}

/// For every live identity the node that holds it: the first one that names it, from the root down. The nodes that name an identity all lie on its
/// path, so the first in this order is the first on the path.
pub fn homes(nodes: &[Node]) -> HashMap<Key, Home> {
    let mut named: HashMap<Key, Option<Home>> = HashMap::new();
    for node in nodes {
        let home = |is_waiting| Some(Home { block: node.block, level: node.level, is_waiting });
        let points = node.points.iter().map(|k| (*k, home(false)));
        let inserts = node.inserts.iter().map(|k| (*k, home(true)));
        let deletes = node.deletes.iter().map(|k| (*k, None));
        for (key, home) in points.chain(inserts).chain(deletes) {
            named.entry(key).or_insert(home);
        }
    }
    named.into_iter().filter_map(|(key, home)| Some((key, home?))).collect()
}
