//! Changes that are sent: a file of them is written from two sheets, and carried out on a card as one.

mod common;
use common::{sheet, spots, Folder, BLOCK};
use std::fs;
use std::os::unix::fs::PermissionsExt;

type Spot = (i32, i32, u32);

impl Folder {
    /// The file of changes from one list of spots to another, and what was said.
    fn send(&self, name: &str, old: &[Spot], new: &[Spot]) -> String {
        self.write("old.csv", sheet(old));
        self.write("new.csv", sheet(new));
        self.run(&["send", "old.csv", "new.csv", "-o", name, "--force"]).exit(0).out
    }

    fn export(&self, card: &str) -> String {
        self.run(&["export", card]).exit(0).out
    }
}

fn sorted(spots: &[Spot]) -> String {
    let mut spots = spots.to_vec();
    spots.sort_unstable();
    sheet(&spots)
}

#[test]
fn a_rehang_is_sent_and_applied() {
    let f = Folder::new();
    let (old, new) = ([(0, 5, 1), (240, 7, 2), (300, 1, 9)], [(240, 7, 3), (300, 1, 9), (-5, 2, 4)]);
    let said = "m.changes: 3 changes from old.csv to new.csv: 1 new, 1 with another track, 1 withdrawn; 1 message of 42 bytes.\n";
    assert_eq!(f.send("m.changes", &old, &new), said);
    let due = [
        &[0, 0, 0, 42, 1, 0, 3][..],
        &[2, 0, 0, 0, 0, 0, 0, 0, 5],
        &[1, 255, 255, 255, 251, 0, 0, 0, 2, 0, 0, 0, 4],
        &[1, 0, 0, 0, 240, 0, 0, 0, 7, 0, 0, 0, 3],
    ];
    assert_eq!(f.read("m.changes"), due.concat());
    f.card("a.card", 9, &old);
    let said = "a.card: 3 changes of m.changes: 1 new, 1 with another track, 1 withdrawn; it holds 3 of 128 spots.\n";
    assert_eq!(f.run(&["apply", "a.card", "m.changes"]).exit(0).out, said);
    assert_eq!(f.export("a.card"), sorted(&new));
    f.run(&["check", "a.card"]).exit(0).says("a.card is sound.").says("those that spotcard wrote");
    // a second time nothing is left to do, and nothing is written
    let (card, digest) = (f.read("a.card"), f.read("a.card.sha256"));
    let again = "a.card: 3 changes of m.changes: the card holds all that they ask for already; nothing changes.\n";
    assert_eq!(f.run(&["apply", "a.card", "m.changes"]).exit(0).out, again);
    assert_eq!((f.read("a.card"), f.read("a.card.sha256")), (card, digest));
    // a card with other spots keeps them
    f.card("b.card", 9, &[(1, 1, 1), (240, 7, 2)]);
    f.run(&["apply", "b.card", "m.changes"]).exit(0).says("1 new, 1 with another track, 0 withdrawn; it holds 3 of 128");
    assert_eq!(f.export("b.card"), sheet(&[(-5, 2, 4), (1, 1, 1), (240, 7, 3)]));
    assert!(f.left_behind().is_empty());
}

#[test]
fn nothing_to_send() {
    let f = Folder::new();
    let said = "m: 0 changes from old.csv to new.csv: 0 new, 0 with another track, 0 withdrawn; 1 message of 7 bytes.\n";
    assert_eq!(f.send("m", &[(0, 5, 1)], &[(0, 5, 1)]), said);
    assert_eq!(f.read("m"), [0, 0, 0, 7, 1, 0, 0]);
    f.card("a.card", 9, &[(0, 5, 1)]);
    f.run(&["apply", "a.card", "m"]).exit(0).says("0 changes of m: the card holds all");
}

/// More changes than a message has: several messages in the file, and still all or none.
#[test]
fn many_changes() {
    let f = Folder::new();
    let (old, new) = (spots(5000, 1), spots(5000, 2));
    f.send("m.changes", &old, &new);
    f.run(&["send", "old.csv", "new.csv", "-o", "n.changes"]).exit(0).says("; 3 messages of ");
    let bytes = f.read("m.changes");
    let length = |at: usize| u32::from_be_bytes(bytes[at..at + 4].try_into().unwrap()) as usize;
    assert_eq!((length(0), length(length(0)) < 53_256), (7 + 9 * 4096, true));
    // withdrawals come first, so a card that just holds the spots is large enough
    f.card("a.card", 314, &old);
    f.run(&["apply", "a.card", "m.changes"]).exit(0).says("10,000 changes of m.changes").says("it holds 5,000 of 5,008 spots");
    assert_eq!(f.export("a.card"), sorted(&new));
    // two files one behind the other are a file, too
    f.send("back.changes", &new, &old);
    f.write("both.changes", [bytes, f.read("back.changes")].concat());
    f.card("b.card", 314, &old);
    f.run(&["apply", "b.card", "both.changes"]).exit(0).says("20,000 changes of both.changes: the card holds all");
    f.run(&["apply", "a.card", "back.changes"]).exit(0);
    assert_eq!(f.export("a.card"), sorted(&old));
    // the last change of the last message is turned down, and nothing is applied
    let fuller: Vec<Spot> = (0..5009).map(|i| (i - 500_000, 3, 1)).collect();
    f.send("over.changes", &old, &fuller);
    let before = f.read("a.card");
    f.run(&["apply", "a.card", "over.changes"])
        .exit(1)
        .complains("over.changes: change 10,009 of 10,009, add place -494992 rank 3 track 1, finds no room.")
        .complains("a.card is full with 5,008 spots, and 1 more would have to find room.")
        .complains("Nothing was changed.");
    assert_eq!(f.read("a.card"), before);
}

#[test]
fn a_change_that_finds_no_room() {
    let f = Folder::new();
    let full: Vec<Spot> = (0..128).map(|i| (i, 0, 1)).collect();
    f.card("a.card", 9, &full);
    let (before, digest) = (f.read("a.card"), f.read("a.card.sha256"));
    // sent for a card that has a spot to withdraw, which this one hasn't
    f.send("m.changes", &[(500, 1, 1)], &[(600, 1, 1), (700, 1, 1)]);
    f.run(&["apply", "a.card", "m.changes"])
        .exit(1)
        .complains("m.changes: change 2 of 3, add place 600 rank 1 track 1, finds no room. a.card is full with 128 spots, and 2 more")
        .complains("`spotcard new LARGER --blocks 10`")
        .complains("Nothing was changed.");
    assert_eq!((f.read("a.card"), f.read("a.card.sha256")), (before, digest));
    assert!(f.left_behind().is_empty());
    f.send("m.changes", &full[..2], &[(600, 1, 1), (700, 1, 1)]);
    f.run(&["apply", "a.card", "m.changes"]).exit(0).says("2 new, 0 with another track, 2 withdrawn; it holds 128 of 128");
}

#[test]
fn what_is_no_file_of_changes_changes_nothing() {
    let f = Folder::new();
    f.card("a.card", 9, &[(0, 5, 1), (240, 7, 2)]);
    f.send("m.changes", &[(0, 5, 1)], &[(240, 7, 3)]);
    let (before, whole) = (f.read("a.card"), f.read("m.changes"));
    let refuses = |bytes: &[u8], words: &str| {
        f.write("x.changes", bytes);
        let ran = f.run(&["apply", "a.card", "x.changes"]).exit(1).complains(words).complains("Nothing was changed.");
        assert_eq!((ran.out.as_str(), f.read("a.card")), ("", before.clone()));
    };
    refuses(b"", "x.changes is no file of changes, or only a part of one: no message stands there.");
    refuses(&whole[..28], "a message of 29 bytes should stand there, and there are 28.");
    refuses(&[&whole[..], &[0]].concat(), "no message stands there from byte 29 on.");
    let mut other = whole.clone();
    other[4] = 2;
    refuses(&other, "x.changes is no file of changes, or a damaged one: what stands there is no message.");
    let mut beyond = whole.clone();
    beyond[17] = 1;
    refuses(&beyond, "of change 2, a place has to lie from -1000000 to 1000000 cm.");
    refuses(b"place,rank,track\n0,5,1\n", "x.changes is no file of changes");
    refuses(&before, "x.changes is a card, not a file of changes. The order is: apply CARD CHANGES.");
    f.write("one.csv", sheet(&[(0, 5, 1)]));
    f.run(&["press", "one.csv", "-o", "one.tour"]).exit(0);
    refuses(&f.read("one.tour"), "x.changes is a pressed tour, not a file of changes.");
    f.run(&["apply", "m.changes", "a.card"]).exit(1).complains("a.card is a card, not a file of changes");
    f.run(&["apply", "one.tour", "m.changes"]).exit(1).complains("one.tour is a pressed tour, not a card");
    f.run(&["apply", "m.changes", "m.changes"]).exit(1).complains("m.changes is not a card");
    f.run(&["apply", "a.card", "no.changes"]).exit(3).complains("no.changes can't be read: there is no such file");
    f.run(&["apply", "no.card", "m.changes"]).exit(3).complains("there is no card no.card");
    for args in [&["apply", "a.card"][..], &["send", "one.csv", "-o", "y"], &["send", "one.csv", "one.csv"]] {
        f.run(args).exit(2);
    }
    assert_eq!(f.read("a.card"), before);
}

#[test]
fn cards_that_are_damaged_or_protected_are_left() {
    let f = Folder::new();
    f.card("a.card", 9, &[(0, 5, 1), (240, 7, 2)]);
    f.send("m.changes", &[(0, 5, 1)], &[(240, 7, 3)]);
    let sound = f.read("a.card");
    let mut damaged = sound.clone();
    damaged[BLOCK + 2] = 9;
    f.write("a.card", &damaged);
    f.run(&["apply", "a.card", "m.changes"]).exit(1).complains("a.card is not sound. Nothing was done.");
    assert_eq!(f.read("a.card"), damaged);
    f.write("a.card", &sound);
    fs::set_permissions(f.path("a.card"), fs::Permissions::from_mode(0o444)).unwrap();
    f.run(&["apply", "a.card", "m.changes"]).exit(3).complains("a.card is write-protected");
    assert_eq!(f.read("a.card"), sound);
}

#[test]
fn sheets_that_are_refused_leave_nothing() {
    let f = Folder::new();
    f.write("good.csv", sheet(&[(0, 5, 1)]));
    f.write("bad.csv", "place,rank,track\n0,5,1\n1000001,1,1\n");
    for args in [["send", "good.csv", "bad.csv", "-o", "m"], ["send", "bad.csv", "good.csv", "-o", "m"]] {
        f.run(&args).exit(1).complains("bad.csv line 3: place \"1000001\" is not a whole number from -1000000 to 1000000");
    }
    let many: Vec<Spot> = (0..65_521).map(|i| (i, 0, 0)).collect();
    f.write("many.csv", sheet(&many));
    f.run(&["send", "good.csv", "many.csv", "-o", "m"]).exit(1).complains("many.csv has 65,521 rows, and no card holds more than 65,520.");
    assert!(!f.path("m").exists());
    f.run(&["send", "good.csv", "good.csv", "-o", "good.csv", "--force"]).exit(1).complains("good.csv is one of the sheets");
    f.write("mine", "notes");
    f.run(&["send", "good.csv", "good.csv", "-o", "mine"]).exit(1).complains("mine exists already").complains("--force");
    assert_eq!(f.text("mine"), "notes");
    f.run(&["send", "good.csv", "good.csv", "-o", "mine", "--force"])
        .exit(1)
        .complains("--force replaces nothing but a file of changes here");
    assert_eq!(f.text("mine"), "notes");
    assert_eq!(f.text("good.csv"), sheet(&[(0, 5, 1)]));
}

/// The largest card there is, all of it another hanging: 32 messages.
#[test]
fn the_largest_card() {
    let f = Folder::new();
    let (old, new) = (spots(65_520, 5), spots(65_520, 6));
    f.card("a.card", 4096, &old);
    f.send("m.changes", &old, &new);
    f.run(&["apply", "a.card", "m.changes"]).exit(0).says("it holds 65,520 of 65,520 spots");
    f.run(&["diff", "a.card", "new.csv"]).exit(0).says("have the same 65,520 spots");
    f.run(&["check", "a.card"]).exit(0);
}
