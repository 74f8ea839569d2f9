//! Request 2026-10, read plainly: what a Top that is allowed so many node blocks reads of a sound table, what it gives, and the ceiling of the rest.

use crate::layout::{block, root};
use crate::range::meets;
use crate::{holds, top_order, Key, Node};
use std::cmp::Reverse;
use std::collections::BTreeSet;

#[derive(Clone, Debug, PartialEq, Eq)]
pub struct Within {
    /// In Top's order.
    pub spots: Vec<(Key, u32)>,
    pub ceiling: i32,
    /// The node blocks in the order in which they are read; block 0 comes before them.
    pub read: Vec<usize>,
}

/// "such a child": unread, with spots, in range. The rank is the one that its entry shows, the identities are those that the nodes above name.
struct Child {
    block: usize,
    rank: i32,
    from: Option<Key>,
    to: Option<Key>,
    named: BTreeSet<Key>,
}

pub fn top_within(table: &[u8], x1: i32, x2: i32, k: u32, allowance: u32) -> Within {
    // "With allowance or k 0 it reads only block 0 and gives no spot and ceiling 2147483647"
    if k == 0 || allowance == 0 {
        return Within { spots: vec![], ceiling: i32::MAX, read: vec![] };
    }
    let (mut children, mut found, mut read) = (vec![], vec![], vec![]);
    // "It reads the root"
    let mut next = Child { block: root(table), rank: i32::MAX, from: None, to: None, named: BTreeSet::new() };
    loop {
        read.push(next.block);
        open(table, next, (x1, x2), &mut children, &mut found);
        // "the live spots found in range whose rank is above every such child's"
        let highest = children.iter().map(|c| c.rank).max();
        let is_given = |spot: &(Key, u32)| highest.is_none_or(|rank| spot.0 .1 > rank);
        let certain = found.iter().filter(|s| is_given(s)).count();
        // "It stops when the allowance is used, k spots are given or no such child is left"
        if read.len() == allowance as usize || certain >= k as usize || children.is_empty() {
            let (mut spots, mut others): (Vec<_>, Vec<_>) = found.into_iter().partition(is_given);
            // "in Top's order and up to k"
            spots.sort_by_key(|s| top_order(s.0));
            others.extend(spots.split_off(spots.len().min(k as usize)));
            // "the highest rank of such a child's entry or of a live spot found in range and not given, else the least 32-bit rank"
            let ceiling = others.iter().map(|s| s.0 .1).chain(highest).max().unwrap_or(i32::MIN);
            return Within { spots, ceiling, read };
        }
        // "then always the unread child with spots, in range, whose entry shows the highest rank (the lower block number on a tie)"
        let first = (0..children.len()).max_by_key(|i| (children[*i].rank, Reverse(children[*i].block)));
        next = children.swap_remove(first.unwrap());
    }
}

/// Reads the node: its spots in range that no node above names are found, its children with spots and in range become known.
fn open(table: &[u8], child: Child, (x1, x2): (i32, i32), children: &mut Vec<Child>, found: &mut Vec<(Key, u32)>) {
    let Child { block: b, from, to, mut named, .. } = child;
    let node = Node::read(block(table, b));
    let spots = node.points.iter().chain(&node.inserts).map(|(k, t)| (*k, *t));
    found.extend(spots.filter(|(k, _)| holds(x1, x2, k.0) && !named.contains(k)));
    named.extend(node.points.keys().chain(node.inserts.keys()).chain(&node.deletes));
    for (j, e) in node.entries.iter().enumerate() {
        let begin = if j == 0 { from } else { e.low };
        let end = node.entries.get(j + 1).map_or(to, |f| f.low);
        if let Some(top) = e.top.filter(|_| meets(x1, x2, begin, end)) {
            children.push(Child { block: e.block, rank: top.1, from: begin, to: end, named: named.clone() });
        }
    }
}
