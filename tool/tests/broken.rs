//! A card of each broken rule, and how it is explained.

mod common;
use common::{spots, Folder, BLOCK};

/// A node of the card under test.
#[derive(Clone, Copy)]
struct Node {
    block: usize,
    points: usize,
    inserts: usize,
    children: usize,
}

impl Node {
    fn of(bytes: &[u8], block: usize) -> Node {
        let at = block * BLOCK;
        let [points, inserts, children] = [4, 5, 7].map(|i| bytes[at + i] as usize);
        Node { block, points, inserts, children }
    }

    fn root(bytes: &[u8]) -> Node {
        Node::of(bytes, bytes[6] as usize * 256 + bytes[7] as usize)
    }

    fn child(self, bytes: &[u8], j: usize) -> Node {
        let at = self.at(self.entry(j));
        Node::of(bytes, bytes[at] as usize * 256 + bytes[at + 1] as usize)
    }

    fn at(self, offset: usize) -> usize {
        self.block * BLOCK + offset
    }

    fn entry(self, j: usize) -> usize {
        8 + 28 * j
    }

    fn point(self, i: usize) -> usize {
        8 + 28 * self.children + 12 * i
    }

    fn insert(self, i: usize) -> usize {
        self.point(self.points) + 12 * i
    }

    fn last_point(self) -> usize {
        self.point(self.points - 1)
    }

    fn last_insert(self) -> usize {
        self.insert(self.inserts - 1)
    }
}

/// A card with waiting changes in an inner root that has a full P.
fn card(f: &Folder) -> Vec<u8> {
    f.waiting_card("a.card", 128, &spots(1500, 5));
    let bytes = f.read("a.card");
    let root = Node::root(&bytes);
    assert!(root.children >= 2 && root.points > 32 && root.inserts > 0);
    bytes
}

/// Changes the card, and expects these words of `check` and exit code 1.
#[track_caller]
fn explained(change: impl Fn(&mut Vec<u8>, Node), expected: impl Fn(&[u8], Node) -> String) {
    let f = Folder::new();
    let mut bytes = card(&f);
    let root = Node::root(&bytes);
    let expected = expected(&bytes, root);
    change(&mut bytes, root);
    f.write("a.card", &bytes);
    let ran = f.run(&["check", "a.card"]).exit(1).says("a.card is NOT sound.").says(&expected);
    assert!(!ran.out.contains("lease report"), "{}", ran.out);
    f.run(&["add", "a.card", "1", "1", "1"]).exit(1).complains("is not sound");
    f.run(&["report", "a.card", "1", "1", "1"]).exit(1).complains("is not sound");
    f.run(&["report", "a.card", "1", "1", "1", "2", "2", "2"]).exit(1).complains("is not sound");
    f.run(&["top", "a.card", "1", "1", "1", "--allow", "0"]).exit(1).complains("is not sound");
    assert_eq!(f.read("a.card"), bytes);
}

#[test]
fn rule_1_length() {
    explained(
        |b, _| b[2] ^= 8,
        |_, _| "block 0, bytes 0-3, breaks rule 1: the table length there is 264,192 bytes; the card has 262,144".into(),
    );
}

#[test]
fn rule_1_map() {
    explained(
        |b, root| b[12 + root.block / 8] ^= 1 << (root.block % 8),
        |_, root| {
            let (byte, block) = (12 + root.block / 8, root.block);
            format!("block 0, byte {byte}, breaks rule 1: block {block} is not marked in the map of blocks in use, but reached from block 0, bytes 6-7: it is the root")
        },
    );
    explained(|b, _| b[12 + 15] |= 128, |_, _| "block 0, byte 27, breaks rule 1: the map marks block 127, which no entry leads to".into());
    explained(
        |b, _| b[12 + 16] |= 1,
        |_, _| "block 0, byte 28, breaks rule 1: the map marks block 128, which the card does not have".into(),
    );
    explained(|b, _| b[12] &= 254, |_, _| "breaks rule 1: block 0 is not marked".into());
}

#[test]
fn rule_1_entries() {
    let entry = |b: &mut Vec<u8>, root: Node, to: usize| {
        let at = root.at(root.entry(1));
        b[at..at + 2].copy_from_slice(&(to as u16).to_be_bytes());
    };
    explained(
        |b, root| entry(b, root, root.child(b, 0).block),
        |b, root| {
            let (first, block) = (root.child(b, 0).block, root.block);
            format!("block {block}, bytes 36-37, breaks rule 1: entry 2 names block {first}, which is reached from block {block}, entry 1 of {} (bytes 8-35 there)", root.children)
        },
    );
    explained(|b, root| entry(b, root, root.block), |_, root| format!("breaks rule 1: entry 2 names its own block, {}", root.block));
    explained(|b, root| entry(b, root, 128), |_, _| "breaks rule 1: entry 2 names block 128; a node can lie in blocks 1 to 127".into());
    explained(|b, root| entry(b, root, 0), |_, _| "breaks rule 1: entry 2 names block 0;".into());
    explained(|b, _| b[6] = 9, |b, _| format!("block 0, bytes 6-7, breaks rule 1: the root is block {}", 9 * 256 + b[7] as usize));
}

#[test]
fn rule_2_levels_and_children() {
    explained(
        |b, root| {
            let at = root.child(b, 1).at(3);
            b[at] += 1;
        },
        |b, root| {
            let (child, level) = (root.child(b, 1).block, b[5] as usize - 2);
            format!("block {child}, byte 3, breaks rule 2: the level is {}; here it has to be {level}\n    block {child}: reached from block {}, entry 2 of {} (bytes 36-63 there)", level + 1, root.block, root.children)
        },
    );
    explained(
        |b, root| b[root.at(7)] = 1,
        |_, root| format!("block {}, byte 7, breaks rule 2: the number of children is 1; here it has to be 2 to 8", root.block),
    );
    explained(|b, root| b[root.at(7)] = 9, |_, _| "byte 7, breaks rule 2: the number of children is 9".into());
}

#[test]
fn rule_3_order_and_ranges() {
    explained(
        |b, root| {
            let (i, j) = (root.at(root.point(3)), root.at(root.point(4)));
            let first: Vec<u8> = b[i..i + 12].to_vec();
            b.copy_within(j..j + 12, i);
            b[j..j + 12].copy_from_slice(&first);
        },
        |_, root| {
            format!("block {}, bytes {}-{}, breaks rule 3: P does not rise in place order", root.block, root.point(3), root.point(4) + 7)
        },
    );
    explained(
        |b, root| {
            let (from, to) = (root.at(root.point(0)), root.at(root.insert(0)));
            b.copy_within(from..from + 8, to);
        },
        |_, root| format!("occurs twice in the node: in P (bytes {}-{}) and in I", root.point(0), root.point(0) + 7),
    );
    explained(
        |b, root| {
            let child = root.child(b, 1);
            let at = child.at(child.point(0));
            b[at] = 0x80;
        },
        |_, _| "in P lies outside the node's range: from place".into(),
    );
    explained(
        |b, root| {
            let (from, to) = (root.at(root.entry(1) + 4), root.at(root.entry(2) + 4));
            b.copy_within(from..from + 8, to);
        },
        |_, root| format!("block {}, bytes 68-75, breaks rule 3: the lowest identity of entry 3", root.block),
    );
}

#[test]
fn rule_3_entry_outside_the_childs_range() {
    explained(
        |b, root| {
            let at = root.at(root.entry(1) + 12);
            b[at..at + 4].copy_from_slice(&(-1i32).to_be_bytes());
        },
        |_, root| format!("block {}, bytes 48-55, breaks rule 3: entry 2 says that the highest of P is place -1 rank ", root.block),
    );
}

#[test]
fn rule_4_ranks() {
    explained(
        |b, root| {
            let at = root.at(root.insert(0) + 4);
            b[at] = 0x7f;
        },
        |_, root| format!("block {}, bytes {}-{}, breaks rule 4: ", root.block, root.insert(0), root.insert(0) + 7),
    );
    explained(
        |b, root| {
            let child = root.child(b, 0);
            let at = child.at(child.point(0) + 4);
            b[at] = 0x7f;
        },
        |_, root| format!("in P does not lie below the lowest of P of block {}, which is place", root.block),
    );
}

#[test]
fn rule_5_sizes() {
    explained(
        |b, root| b[root.at(4)] = 31,
        |_, root| {
            format!(
                "block {}, bytes 4-6, breaks rule 5: P has 31, I {}, D 0; where P is under 32, I and D are empty",
                root.block, root.inserts
            )
        },
    );
    explained(|b, root| b[root.at(4)] = 65, |_, _| "bytes 4-6, breaks rule 5: P has 65".into());
    explained(|b, root| b[root.at(6)] = 17, |_, _| "D 17; P has at most 64, I at most 64, D at most 16".into());
    explained(
        |b, root| b[root.at(root.entry(1) + 2)] = 65,
        |_, root| format!("block {}, byte 38, breaks rule 5: entry 2 says that P has 65; P has at most 64", root.block),
    );
    explained(
        |b, root| {
            let mut leaf = root;
            while leaf.children > 0 {
                leaf = leaf.child(b, 0);
            }
            b[leaf.at(5)] = 1;
        },
        |_, _| "bytes 5-6, breaks rule 5: P has".into(),
    );
}

#[test]
fn rule_6_fields() {
    explained(|b, _| b[4] = 2, |_, _| "block 0, byte 4, breaks rule 6: the version is 2, not 1".into());
    explained(|b, _| b[5] = 8, |_, _| "block 0, byte 5, breaks rule 6: the number of levels is 8, not 1 to 7".into());
    explained(
        |b, _| b[11] -= 1,
        |_, _| "block 0, bytes 8-11, breaks rule 6: the figure there is 1,499, below the number of live spots, which is 1,500".into(),
    );
    explained(|b, _| b[9] = 1, |_, _| "above the capacity of 2,032 spots".into());
    explained(|b, _| b[600] = 1, |_, _| "block 0, byte 600, breaks rule 6: these bytes have to be zero".into());
    explained(|b, root| b[root.at(2)] = 0, |_, root| format!("block {}, byte 2, breaks rule 6: the version is 0, not 1", root.block));
    explained(|b, root| b[root.at(1)] ^= 1, |_, root| format!("block {}, bytes 0-1, breaks rule 6: the used length there is", root.block));
    explained(
        |b, root| b[root.at(2047)] = 1,
        |_, root| format!("block {}, byte 2047, breaks rule 6: these bytes lie behind what is used", root.block),
    );
    explained(|b, root| b[root.at(5)] = 255, |_, _| "bytes 4-7, breaks rule 6: P, I, D and children of these sizes need".into());
}

#[test]
fn rule_6_entries() {
    explained(|b, root| b[root.at(root.entry(0) + 19)] ^= 1, |_, root| format!("(bytes 20-27 of block {})", root.block));
    explained(
        |b, root| b[root.at(root.entry(1) + 3)] = 1,
        |_, root| format!("block {}, byte 39, breaks rule 6: in entry 2, this has to be zero", root.block),
    );
    explained(
        |b, root| b[root.at(root.entry(0) + 4)] = 1,
        |_, _| "bytes 12-19, breaks rule 6: in entry 1, this is the range field of a first entry".into(),
    );
    explained(
        |b, root| b[root.at(root.entry(1) + 2)] -= 1,
        |b, root| {
            let child = root.child(b, 1);
            format!(
                "block {}, byte 4, breaks rule 6: P has {}; the entry says {} (byte 38 of block {})",
                child.block,
                child.points,
                child.points - 1,
                root.block
            )
        },
    );
    explained(
        |b, root| {
            let (from, to) = (root.at(root.entry(1) + 12), root.at(root.entry(1) + 20));
            b.copy_within(from..from + 8, to);
        },
        |b, root| {
            format!("block {}, bytes 48-63, breaks rule 6: entry 2 says that P has {}, its highest is", root.block, root.child(b, 1).points)
        },
    );
    explained(
        |b, root| {
            let at = root.at(root.entry(1) + 12);
            let (high, low): (Vec<u8>, Vec<u8>) = (b[at..at + 8].to_vec(), b[at + 8..at + 16].to_vec());
            b[at..at + 8].copy_from_slice(&low);
            b[at + 8..at + 16].copy_from_slice(&high);
        },
        |_, _| "bytes 48-63, breaks rule 6: entry 2 says that the highest of P is".into(),
    );
}

#[test]
fn rule_7_limits_of_places() {
    const OUTSIDE: &str = "outside the limits of places, -1,000,000 to 1,000,000 cm";
    let far = |b: &mut Vec<u8>, at: usize, place: i32| b[at..at + 4].copy_from_slice(&place.to_be_bytes());
    // the rank that stands behind a place
    let rank = |b: &[u8], at: usize| i32::from_be_bytes(b[at + 4..at + 8].try_into().unwrap());
    for (place, at) in
        [(1_000_001, Node::last_point as fn(Node) -> usize), (i32::MAX, Node::last_insert), (-1_000_001, |root| root.point(0))]
    {
        explained(
            |b, root| far(b, root.at(at(root)), place),
            |b, root| {
                let (list, offset) = (if at(root) < root.insert(0) { 'P' } else { 'I' }, at(root));
                let (bytes, rank) = (format!("bytes {offset}-{}", offset + 3), rank(b, root.at(offset)));
                format!("block {}, {bytes}, breaks rule 7: place {place} rank {rank} in {list} lies {OUTSIDE}", root.block)
            },
        );
    }
    explained(
        |b, root| far(b, root.at(root.entry(root.children - 1) + 4), 1_000_001),
        |_, root| {
            let (last, at) = (root.children, root.entry(root.children - 1) + 4);
            let what = format!("the lowest identity of entry {last} is place 1000001 rank ");
            format!("block {}, bytes {at}-{}, breaks rule 7: {what}", root.block, at + 3)
        },
    );
    for (name, at) in [("highest", 12), ("lowest", 20)] {
        explained(
            |b, root| far(b, root.at(root.entry(0) + at), -1_000_001),
            |b, root| {
                let rank = rank(b, root.at(root.entry(0) + at));
                let what = format!("entry 1 says that the {name} of P is place -1000001 rank {rank}, {OUTSIDE}");
                format!("block {}, bytes {}-{}, breaks rule 7: {what}", root.block, at + 8, at + 11)
            },
        );
    }
    explained(
        |b, root| far(b, root.at(root.last_point()), 1_000_001),
        |_, _| "\nRule 7: A place lies in -1,000,000 to 1,000,000 centimetres".into(),
    );
}

#[test]
fn the_rule_is_quoted_and_the_place_in_the_file_named() {
    let f = Folder::new();
    let mut bytes = card(&f);
    let root = Node::root(&bytes);
    bytes[root.at(2)] = 9;
    f.write("a.card", &bytes);
    f.run(&["check", "a.card"])
        .exit(1)
        .says(&format!("in the file, byte {}", root.at(2)))
        .says("Rule 6: Entries agree with their children.");
}
