//! A way back: what would be lost is asked about, what was there is kept, and what is broken is salvaged.

mod common;
use common::{sheet, spots, Folder, Random, BLOCK};
use std::fs;
use std::process::{Command, Stdio};
use std::time::Duration;

type Spot = (i32, i32, u32);

fn many(n: i32) -> Vec<Spot> {
    (0..n).map(|i| (i * 10, i % 5, i as u32)).collect()
}

impl Folder {
    fn export(&self, card: &str) -> String {
        self.run(&["export", card]).exit(0).out
    }
}

#[test]
fn a_sheet_that_empties_a_card_is_asked_about() {
    let f = Folder::new();
    f.card("a.card", 9, &[(0, 5, 1), (240, 7, 2), (300, 1, 9)]);
    let before = f.read("a.card");
    f.write("none.csv", "place,rank,track\n");
    let ran = f.run(&["import", "none.csv", "a.card", "--replace"]).exit(1);
    let said = "\
would go: place 0 rank 5 track 1
would go: place 240 rank 7 track 2
would go: place 300 rank 1 track 9
spotcard: none.csv has no rows: 3 of the 3 spots of a.card would go. Nothing was changed. If that is meant, say --yes.
";
    assert_eq!((ran.out.as_str(), ran.err.as_str()), ("", said));
    f.write("one.csv", sheet(&[(240, 7, 60), (1, 1, 1)]));
    f.run(&["import", "one.csv", "a.card", "--replace"])
        .exit(1)
        .complains("would go: place 0 rank 5 track 1\nwould go: place 300 rank 1 track 9\n")
        .complains("spotcard: 2 of the 3 spots of a.card would go. Nothing was changed.");
    assert_eq!(f.read("a.card"), before);
    f.run(&["import", "none.csv", "a.card"]).exit(0).says("0 rows of none.csv: 0 new");
    f.run(&["import", "one.csv", "a.card", "--replace", "--yes"]).exit(0).says("2 new, 0 on the card already, 3 withdrawn");
    f.run(&["import", "one.csv", "a.card", "--yes"]).exit(2).complains("--replace");
    // half of them may go, and an empty card has none to lose
    f.card("b.card", 9, &many(40));
    f.write("half.csv", sheet(&many(20)));
    f.run(&["import", "half.csv", "b.card", "--replace"]).exit(0).says("20 withdrawn");
    f.write("less.csv", sheet(&many(9)));
    f.run(&["import", "less.csv", "b.card", "--replace"]).exit(1).complains("11 of the 20 spots of b.card would go");
    f.run(&["new", "c.card", "--blocks", "9"]).exit(0);
    f.run(&["import", "none.csv", "c.card", "--replace"]).exit(0);
    f.card("d.card", 9, &many(128));
    let ran = f.run(&["import", "none.csv", "d.card", "--replace"]).exit(1);
    assert!(ran.err.contains("would go: place 190 rank 4 track 19\n... and 108 more\nspotcard: none.csv"), "{}", ran.err);
}

#[test]
fn a_dry_run_says_what_would_happen() {
    let f = Folder::new();
    f.card("a.card", 9, &[(0, 5, 1), (240, 7, 2)]);
    f.write("new.csv", sheet(&[(0, 5, 1), (7, 7, 7)]));
    f.run(&["send", "made.csv", "new.csv", "-o", "m.changes"]).exit(0);
    let names = || fs::read_dir(f.dir.path()).unwrap().count();
    fs::remove_file(f.path("a.card.lock")).unwrap();
    let (before, files) = (f.read("a.card"), names());
    let dry = |args: &[&str]| f.run(&[args, &["--dry-run"]].concat());
    let said = "a.card: 2 rows of new.csv: 1 new, 1 on the card already; it would hold 3 of 128 spots. Nothing was changed (--dry-run).\n";
    assert_eq!(dry(&["import", "new.csv", "a.card"]).exit(0).out, said);
    let said = "a.card: 2 rows of new.csv: 1 new, 1 on the card already, 1 withdrawn; it would hold 2 of 128 spots. Nothing was changed (--dry-run).\n";
    assert_eq!(dry(&["import", "new.csv", "a.card", "--replace"]).exit(0).out, said);
    let said = "a.card: 2 changes of m.changes: 1 new, 0 with another track, 1 withdrawn; it would hold 2 of 128 spots. Nothing was changed (--dry-run).\n";
    assert_eq!(dry(&["apply", "a.card", "m.changes"]).exit(0).out, said);
    f.write("bad.csv", "place,rank,track\n0,5,x\n");
    dry(&["import", "bad.csv", "a.card"]).exit(1).complains("bad.csv line 2: track \"x\"");
    assert_eq!((f.read("a.card"), names()), (before, files + 1));
}

#[test]
fn the_card_before_the_last_change_comes_back() {
    let f = Folder::new();
    f.run(&["new", "a.card", "--blocks", "9"]).exit(0);
    f.run(&["undo", "a.card"]).exit(1).complains("there is no a.card.before: no change of a.card was kept. Nothing was done.");
    f.run(&["add", "a.card", "1", "1", "1"]).exit(0);
    f.run(&["add", "a.card", "2", "2", "2"]).exit(0);
    let (one, two) = (sheet(&[(1, 1, 1)]), sheet(&[(1, 1, 1), (2, 2, 2)]));
    assert_eq!(f.export("a.card.before"), one);
    f.run(&["check", "a.card.before"]).exit(0).says("those that spotcard wrote (a.card.before.sha256)");
    let said = "a.card: as it was before the last change, with 1 spot; `spotcard undo a.card` takes this back.\n";
    assert_eq!(f.run(&["undo", "a.card"]).exit(0).out, said);
    assert_eq!((f.export("a.card"), f.export("a.card.before")), (one.clone(), two.clone()));
    f.run(&["check", "a.card"]).exit(0).says("those that spotcard wrote");
    f.run(&["undo", "a.card"]).exit(0).says("with 2 spots");
    assert_eq!(f.export("a.card"), two);
    // what changes nothing keeps what was kept
    f.run(&["add", "a.card", "2", "2", "2"]).exit(0).says("nothing changes");
    assert_eq!(f.export("a.card.before"), one);
    // a new card in its place can be taken back, too
    f.run(&["new", "a.card", "--blocks", "12", "--force"]).exit(0);
    f.run(&["undo", "a.card"]).exit(0);
    assert_eq!(f.export("a.card"), two);
    // also where the card itself is broken; the broken one is kept
    let mut bytes = f.read("a.card");
    bytes[BLOCK + 2] = 9;
    f.run(&["add", "a.card", "3", "3", "3"]).exit(0);
    f.write("a.card", &bytes);
    f.run(&["undo", "a.card"]).exit(0);
    assert_eq!((f.export("a.card"), f.read("a.card.before")), (two, bytes));
    f.run(&["undo", "a.card"]).exit(1).complains("a.card.before is not sound. Nothing was done.");
}

#[test]
fn a_card_before_that_was_changed_is_not_put_back() {
    let f = Folder::new();
    f.card("a.card", 9, &[(0, 5, 1), (240, 7, 2)]);
    f.run(&["add", "a.card", "1", "1", "1"]).exit(0);
    let now = f.read("a.card");
    let mut bytes = f.read("a.card.before");
    bytes[BLOCK + 8 + 11] ^= 64;
    f.write("a.card.before", &bytes);
    f.run(&["undo", "a.card"]).exit(1).complains("a.card.before is not as spotcard left it").complains("delete a.card.before.sha256");
    assert_eq!(f.read("a.card"), now);
    // a tour has a way back, too
    f.write("one.csv", sheet(&[(0, 5, 1)]));
    f.run(&["press", "one.csv", "-o", "a.tour"]).exit(0);
    let tour = f.read("a.tour");
    f.run(&["press", "made.csv", "-o", "a.tour", "--force"]).exit(0);
    f.run(&["undo", "a.tour"]).exit(0).says("a.tour: as it was before the last change, with 1 spot");
    assert_eq!(f.read("a.tour"), tour);
}

/// Killed at any moment of a change, the card is the old one or the new one, and `undo` gives the one before it.
#[test]
fn the_way_back_is_there_after_a_crash() {
    let f = Folder::new();
    f.card("a.card", 256, &spots(2000, 5));
    let mut random = Random(17);
    let mut history = vec![f.export("a.card")];
    f.run(&["add", "a.card", "0", "-1", "0"]).exit(0);
    history.push(f.export("a.card"));
    let (mut old, mut new) = (0, 0);
    for i in 1..60 {
        let place = i.to_string();
        let mut child = Command::new(env!("CARGO_BIN_EXE_spotcard"))
            .args(["add", "a.card", &place, "-1", "7"])
            .current_dir(f.dir.path())
            .stdout(Stdio::null())
            .stderr(Stdio::null())
            .spawn()
            .unwrap();
        std::thread::sleep(Duration::from_micros(random.below(60_000)));
        child.kill().unwrap();
        child.wait().unwrap();
        let now = f.export("a.card");
        if history.last() == Some(&now) {
            old += 1;
        } else {
            history.push(now);
            new += 1;
        }
        if i % 3 == 0 {
            f.run(&["undo", "a.card"]).exit(0);
            let n = history.len();
            assert_eq!(f.export("a.card"), history[n - 2], "round {i}");
            history.swap(n - 1, n - 2);
        }
    }
    println!("old {old}, new {new}");
    f.run(&["check", "a.card"]).exit(0).says("those that spotcard wrote");
    assert!(old > 0 && new > 0, "old {old}, new {new}");
}

#[test]
fn force_replaces_files_of_its_own_kind_alone() {
    let f = Folder::new();
    f.card("a.card", 9, &[(0, 5, 1)]);
    f.write("sheet.csv", sheet(&[(0, 5, 1)]));
    f.run(&["press", "sheet.csv", "-o", "a.tour"]).exit(0);
    f.run(&["send", "sheet.csv", "sheet.csv", "-o", "a.changes"]).exit(0);
    f.run(&["picture", "a.card", "-o", "a.svg"]).exit(0);
    f.write("notes.txt", "mine");
    f.write("other.card", f.read("a.card"));
    let kinds = [
        ("a.card", "a card"),
        ("a.tour", "a pressed tour"),
        ("a.changes", "a file of changes"),
        ("a.svg", "a picture"),
        ("sheet.csv", "a sheet"),
    ];
    let commands: [(&[&str], &str); 5] = [
        (&["new"], "a card"),
        (&["press", "made.csv", "-o"], "a pressed tour"),
        (&["send", "made.csv", "made.csv", "-o"], "a file of changes"),
        (&["picture", "other.card", "-o"], "a picture"),
        (&["export", "other.card", "-o"], "a sheet"),
    ];
    for (command, own) in commands {
        for (name, kind) in kinds {
            let (before, digest) = (f.read(name), fs::read(f.path(&format!("{name}.sha256"))).ok());
            let ran = f.run(&[command, &[name, "--force"]].concat());
            if own == kind {
                ran.exit(0);
                continue;
            }
            ran.exit(1)
                .complains(&format!("{name} exists already and is {kind}; --force replaces nothing but {own} here. It is left as it is;"));
            assert_eq!((f.read(name), fs::read(f.path(&format!("{name}.sha256"))).ok()), (before, digest));
        }
        f.run(&[command, &["notes.txt", "--force"]].concat()).exit(1).complains("notes.txt exists already; --force replaces nothing but");
        assert_eq!(f.text("notes.txt"), "mine");
        f.write("empty", "");
        f.run(&[command, &["empty"]].concat()).exit(1).complains("--force");
        f.run(&[command, &["empty", "--force"]].concat()).exit(0);
        let _ = ["empty", "empty.lock", "empty.sha256", "empty.before", "empty.before.sha256"].map(|name| fs::remove_file(f.path(name)));
    }
}

#[test]
fn every_file_has_its_info_and_its_check() {
    let f = Folder::new();
    f.write("old.csv", sheet(&[(0, 5, 1), (240, 7, 2)]));
    f.write("new.csv", sheet(&[(240, 7, 3), (300, 1, 9)]));
    f.run(&["send", "old.csv", "new.csv", "-o", "m.changes"]).exit(0);
    let info = "\
file of changes  m.changes
messages         1 message of 42 bytes
additions        2
withdrawals      1
digest           none: a message has no seal
";
    assert_eq!(f.run(&["info", "m.changes"]).exit(0).out, info);
    f.run(&["check", "m.changes"])
        .exit(0)
        .says("m.changes is a file of changes, and is sound: 3 changes in 1 message.\nA message has no seal");
    f.run(&["press", "old.csv", "-o", "a.tour"]).exit(0);
    let said = "a.tour is a pressed tour, and is sound.\nIts bytes are those that spotcard wrote (a.tour.sha256).\n";
    assert_eq!(f.run(&["check", "a.tour"]).exit(0).out, said);
    let mut bytes = f.read("a.tour");
    bytes[BLOCK + 3] ^= 1;
    f.write("a.tour", bytes);
    f.run(&["check", "a.tour"])
        .exit(1)
        .says("a.tour is a pressed tour, and is NOT sound: pressing its spots would give other bytes.")
        .says("are NOT those");
    f.write("x.changes", &f.read("m.changes")[..20]);
    for command in ["info", "check"] {
        f.run(&[command, "x.changes"]).exit(1).complains("x.changes is not a card: it has 20 bytes");
    }
    f.write("x", "1");
    f.run(&["info", "x"]).exit(1).complains("x is not a card: it has 1 byte, and");
}

#[test]
fn any_two_of_card_tour_and_sheet_are_compared() {
    let f = Folder::new();
    let (old, new) = ([(0, 5, 1), (240, 7, 2)], [(240, 7, 2), (300, 1, 9)]);
    f.card("old.card", 9, &old);
    f.card("new.card", 9, &new);
    f.write("old.csv", sheet(&old));
    f.write("new.csv", sheet(&new));
    f.run(&["press", "old.csv", "-o", "old.tour"]).exit(0);
    f.run(&["press", "new.csv", "-o", "new.tour"]).exit(0);
    let kinds = [("card", "on the card"), ("tour", "on the tour"), ("csv", "in the sheet")];
    for (one, first) in kinds {
        for (other, second) in kinds {
            f.run(&["diff", &format!("old.{one}"), &format!("old.{other}")]).exit(0).says("have the same 2 spots.");
            let [first, second] =
                if one == other { [format!("in old.{one}"), format!("in new.{one}")] } else { [first.into(), second.into()] };
            let ran = f.run(&["diff", &format!("old.{one}"), &format!("new.{other}")]).exit(1);
            let lines: Vec<String> = ran.out.lines().map(|line| line.split_whitespace().collect::<Vec<_>>().join(" ")).collect();
            let line = |kind: &str| if kind == "csv" { [" (line 2)", " (line 3)"] } else { [""; 2] };
            let due = [
                format!("only {first}: place 0 rank 5 track 1{}", line(one)[0]),
                format!("only {second}: place 300 rank 1 track 9{}", line(other)[1]),
            ];
            assert_eq!(lines, due);
        }
    }
    let csv = "only_in,place,rank,track,line\ncard,0,5,1,\ntour,300,1,9,\n";
    assert_eq!(f.run(&["diff", "old.card", "new.tour", "--csv"]).exit(1).out, csv);
    let csv = "only_in,place,rank,track,line\nold.csv,0,5,1,2\nnew.csv,300,1,9,3\n";
    assert_eq!(f.run(&["diff", "old.csv", "new.csv", "--csv"]).exit(1).out, csv);
    // with changes: what they would do
    f.run(&["send", "old.csv", "new.csv", "-o", "m.changes"]).exit(0);
    let said = "only on the card:        place 0 rank 5 track 1\nonly after the changes:  place 300 rank 1 track 9\n";
    assert_eq!(f.run(&["diff", "old.card", "m.changes"]).exit(1).out, said);
    f.run(&["diff", "new.card", "m.changes"]).exit(0).says("new.card and new.card after m.changes have the same 2 spots.");
    f.run(&["diff", "m.changes", "old.card"]).exit(1).complains("m.changes is a file of changes. It can be the second file");
}

#[test]
fn changes_for_another_card_are_noticed() {
    let f = Folder::new();
    f.write("old.csv", sheet(&[(0, 5, 1), (240, 7, 2)]));
    f.write("new.csv", sheet(&[(240, 7, 3), (300, 1, 9), (310, 1, 9)]));
    f.run(&["send", "old.csv", "new.csv", "-o", "m.changes"]).exit(0);
    f.card("b.card", 9, &[(240, 7, 2), (300, 1, 9)]);
    let ran = f.run(&["apply", "b.card", "m.changes"]).exit(0).says("1 new, 1 with another track, 0 withdrawn");
    let said = "spotcard: b.card is not the card that m.changes was made for: 1 withdrawal (place 0 rank 5) of what isn't there, \
                1 addition (place 300 rank 1) of what is there already.\n";
    assert_eq!(ran.err, said);
    f.card("a.card", 9, &[(0, 5, 1), (240, 7, 2)]);
    assert_eq!(f.run(&["apply", "a.card", "m.changes"]).exit(0).err, "");
    assert_eq!(f.run(&["apply", "a.card", "m.changes"]).exit(0).says("nothing changes").err, "");
}

#[test]
fn a_newer_version_is_called_newer() {
    let f = Folder::new();
    f.card("a.card", 9, &[(0, 5, 1)]);
    let mut bytes = f.read("a.card");
    bytes[4] = 2;
    f.write("b.card", &bytes);
    let newer = "b.card was made by a newer spotcard: it has version 2, and this one knows version 1. Nothing was done.";
    for args in [
        &["check", "b.card"][..],
        &["info", "b.card"],
        &["add", "b.card", "1", "1", "1"],
        &["report", "b.card", "0", "9", "0"],
        &["undo", "b.card"],
    ] {
        let words = if args[0] == "undo" { "there is no b.card.before" } else { newer };
        f.run(args).exit(1).complains(words);
    }
    assert_eq!(f.read("b.card"), bytes);
    // the digest knows better
    f.write("a.card", &bytes);
    f.run(&["check", "a.card"]).exit(1).says("the version is 2, not 1");
    // of another length, or a tour
    let length = 5 * 1000u32;
    f.write("c.card", [&length.to_be_bytes()[..], &[3], &[0; 4995]].concat());
    f.run(&["info", "c.card"]).exit(1).complains("c.card was made by a newer spotcard: it has version 3");
}

#[test]
fn what_is_left_of_a_broken_card() {
    let f = Folder::new();
    f.waiting_card("a.card", 128, &spots(1500, 5));
    let (whole, all) = (f.read("a.card"), f.export("a.card"));
    let said = f
        .run(&["salvage", "a.card", "-o", "rest.csv"])
        .exit(0)
        .says("rest.csv: 1,500 spots of the ")
        .says("that are in order.\nNothing is lost.")
        .out;
    assert_eq!((f.text("rest.csv"), said.lines().count()), (all.clone(), 2));
    f.run(&["salvage", "a.card", "-o", "rest.csv"]).exit(1).complains("rest.csv exists already");
    let salvage = |bytes: &[u8]| {
        f.write("b.card", bytes);
        let out = f.run(&["salvage", "b.card", "-o", "rest.csv", "--force"]).exit(0).out;
        assert_eq!(f.read("b.card"), bytes);
        let (rows, lines): (Vec<String>, Vec<String>) =
            (f.text("rest.csv").lines().skip(1).map(String::from).collect(), out.lines().map(String::from).collect());
        assert!(rows.iter().all(|row| all.contains(&format!("\n{row}\n"))), "a spot that the card never had");
        (rows.len(), lines)
    };
    // a block below the root
    let root = usize::from(whole[6]) * 256 + usize::from(whole[7]);
    let child = usize::from(whole[root * BLOCK + 8]) * 256 + usize::from(whole[root * BLOCK + 9]);
    let mut bytes = whole.clone();
    bytes[child * BLOCK + 2] = 9;
    let (rows, lines) = salvage(&bytes);
    assert!(rows > 1300 && rows < 1500, "{rows}");
    let way = format!("lost: block {child}, byte 2, breaks rule 6: the version is 9, not 1 (by its parent, block {root}, it had ");
    assert!(lines[1].starts_with(&way), "{lines:?}");
    assert!(lines[2].starts_with("What stood there is missing in rest.csv;"), "{lines:?}");
    // the rest can be imported
    f.run(&["new", "c.card", "--blocks", "128"]).exit(0);
    f.run(&["import", "rest.csv", "c.card"]).exit(0);
    // the root, block 0, and the second half of the file
    let mut bytes = whole.clone();
    bytes[root * BLOCK..(root + 1) * BLOCK].fill(0xFF);
    let (rows, lines) = salvage(&bytes);
    assert!(rows > 1300 && lines[1].starts_with(&format!("lost: block {root}")), "{rows} {lines:?}");
    let mut bytes = whole.clone();
    bytes[..BLOCK].fill(0);
    let (rows, lines) = salvage(&bytes);
    assert!(rows >= 1490 && lines[1].starts_with("lost: block 0, which says what blocks are in use"), "{rows} {lines:?}");
    let (rows, lines) = salvage(&whole[..BLOCK * 20 + 77]);
    assert!(rows > 100 && lines.iter().any(|line| line.contains("behind the end of the file")), "{rows} {lines:?}");
    let mut random = Random(3);
    for _ in 0..40 {
        let mut bytes = whole.clone();
        (0..30).for_each(|_| bytes[random.below(40 * BLOCK as u64) as usize] = random.below(256) as u8);
        f.write("b.card", &bytes);
        f.run(&["salvage", "b.card", "-o", "rest.csv", "--force"]).exit(0);
    }
    f.run(&["salvage", "no.card", "-o", "x.csv"]).exit(3);
    f.run(&["salvage", "rest.csv", "-o", "rest.csv"]).exit(1);
    f.run(&["salvage", "a.card", "-o", "a.card", "--force"]).exit(1).complains("a.card is the card itself");
}
