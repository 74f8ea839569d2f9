//! Links, odd names, many reports in one picture, several spots in one call.

mod common;
use common::{sheet, spots, Folder};
use std::ffi::{OsStr, OsString};
use std::os::unix::ffi::OsStrExt;
use std::{fs, process};

#[test]
fn every_report_is_drawn() {
    let f = Folder::new();
    let all: Vec<_> = (0..100).map(|i| (100 * i, i % 10, i as u32)).collect();
    f.card("a.card", 32, &all);
    let draw = |args: &[&str]| {
        f.run(&[&["picture", "a.card", "-o", "a.svg"], args].concat()).exit(0);
        f.text("a.svg")
    };
    let shaded = |svg: &str| svg.matches("fill-opacity=\"0.06\"").count();
    let ringed = |svg: &str| svg.matches("fill=\"none\" stroke=\"#000\"").count();
    let three = draw(&["--report", "0", "990", "5", "--report", "2000", "2990", "9", "--report", "9000", "90", "8"]);
    assert_eq!((shaded(&three), ringed(&three)), (4, 5 + 1 + 2));
    for words in [
        ">The queries<",
        ">3 reports<",
        ">0 to 990, rank 5: 5 spots<",
        ">2000 to 2990, rank 9: 1 spot<",
        ">9000 on to 90, rank 8: 2 spots<",
    ] {
        assert!(three.contains(words), "{words}");
    }
    // too long for a line
    let long = draw(&["--report", "0", "990", "5", "--report", "2147483647", "-2147483648", "-2147483648"]);
    assert!(long.contains(">2147483647 on to -2147483648<") && long.contains(">rank -2147483648: 0 spots<"));
    // a spot that two of them find is ringed once
    assert_eq!(ringed(&draw(&["--report", "0", "990", "5", "--report", "0", "990", "6"])), 5);
    let one = draw(&["--report", "0", "990", "5"]);
    assert!(one.contains(">The query<") && shaded(&one) == 1);
    let many = ["--report", "0", "990", "5"].repeat(64);
    assert!(draw(&many).contains("... and 52 more"));
    let more = [&["picture", "a.card", "-o", "a.svg"], &["--report", "0", "990", "5"].repeat(65)[..]].concat();
    f.run(&more).exit(1).complains("at most 64 ranges");
    f.run(&["picture", "a.card", "-o", "a.svg", "--top", "0", "9", "1", "--top", "0", "9", "2"])
        .exit(2)
        .complains("--top can be given once");
}

/// Where each circle of a picture lies, and whether all lie on the paper of the plot.
fn circles(svg: &str) -> Vec<(f64, f64)> {
    let number =
        |line: &str, name: &str| line.split(&format!("{name}=\"")).nth(1).unwrap().split('"').next().unwrap().parse::<f64>().unwrap();
    svg.lines().filter(|l| l.starts_with("<circle") && l.contains("<title>")).map(|l| (number(l, "cx"), number(l, "cy"))).collect()
}

#[test]
fn what_was_found_is_never_left_out() {
    let f = Folder::new();
    let extremes = [(-1_000_000, i32::MIN, 1), (1_000_000, i32::MAX, 2), (0, i32::MAX, 3)];
    let small: Vec<_> = spots(900, 4).into_iter().chain(extremes).collect();
    f.card("small.card", 80, &small);
    f.run(&["picture", "small.card", "-o", "small.svg"]).exit(0);
    let svg = f.text("small.svg");
    assert!(!svg.contains("not shown"));
    let on_paper = |(x, y): &(f64, f64)| (116.0..=976.0).contains(x) && (84.0..=544.0).contains(y);
    assert!(circles(&svg).iter().all(on_paper));
    for (place, rank, track) in extremes {
        assert!(svg.contains(&format!("<title>place {place} rank {rank} track {track},")), "{place}");
    }
    let large: Vec<_> = spots(2000, 4).into_iter().chain(extremes).collect();
    f.card("large.card", 200, &large);
    let draw = |args: &[&str]| {
        f.run(&[&["picture", "large.card", "-o", "large.svg"], args].concat()).exit(0);
        f.text("large.svg")
    };
    let svg = draw(&[]);
    assert!(svg.contains("not shown, far to the left: 1 spot") && svg.contains("not shown, far above: 2 spots"));
    let svg = draw(&["--report", "-1000000", "-999999", "-2147483648"]);
    assert!(!svg.contains("far to the left") && !svg.contains("far below") && svg.contains("far to the right: 1 spot"));
    let svg = draw(&["--top", "-1000000", "1000000", "2"]);
    assert!(!svg.contains("far to the right") && !svg.contains("far above") && svg.contains("far to the left: 1 spot"));
}

#[test]
fn the_files_beside_a_card_are_those_of_the_real_one() {
    let f = Folder::new();
    f.card("real.card", 9, &[(0, 5, 1)]);
    std::os::unix::fs::symlink("real.card", f.path("link.card")).unwrap();
    f.run(&["check", "link.card"]).exit(0).says("link.card is sound.").says("real.card.sha256)");
    f.run(&["info", "link.card"]).exit(0).says("real.card.sha256 has it");
    f.run(&["add", "link.card", "1", "1", "1"]).exit(0);
    f.run(&["undo", "link.card"]).exit(0);
    assert_eq!(f.run(&["export", "real.card"]).out, sheet(&[(0, 5, 1)]));
    // a link to what is not there yet
    std::os::unix::fs::symlink("new.card", f.path("to-new.card")).unwrap();
    f.run(&["new", "to-new.card", "--blocks", "9"]).exit(0);
    std::os::unix::fs::symlink("sheet.csv", f.path("to-sheet.csv")).unwrap();
    f.run(&["export", "real.card", "-o", "to-sheet.csv"]).exit(0);
    for (link, real) in [("link.card", "real.card"), ("to-new.card", "new.card"), ("to-sheet.csv", "sheet.csv")] {
        assert!(
            fs::symlink_metadata(f.path(link)).unwrap().is_symlink() && fs::symlink_metadata(f.path(real)).unwrap().is_file(),
            "{link}"
        );
    }
    for name in ["link.card", "to-new.card", "to-sheet.csv"] {
        for ending in ["sha256", "lock", "before"] {
            assert!(!f.path(&format!("{name}.{ending}")).exists(), "{name}.{ending}");
        }
    }
    // of two names of one file only one would change
    fs::hard_link(f.path("real.card"), f.path("second.card")).unwrap();
    let before = f.read("real.card");
    for name in ["real.card", "second.card", "link.card"] {
        f.run(&["add", name, "1", "1", "1"]).exit(3).complains(&format!("{name} is one of 2 names of the same file (hard links)"));
        f.run(&["report", name, "0", "9", "0"]).exit(0);
    }
    assert_eq!((f.read("real.card"), f.read("second.card")), (before.clone(), before));
    fs::remove_file(f.path("second.card")).unwrap();
    f.run(&["add", "real.card", "1", "1", "1"]).exit(0);
}

#[test]
fn names_of_any_bytes() {
    let f = Folder::new();
    f.write("sheet.csv", sheet(&[(0, 5, 1)]));
    let rows: [(&[u8], &str); 3] =
        [(b"two\nlines.card", "\"two\\nlines.card\""), (b"K\xE4se.card", "\"K\\xE4se.card\""), (b"back\\slash", "back\\slash")];
    for (name, shown) in rows {
        let run = |args: &[&[u8]]| {
            let args: Vec<&OsStr> = args.iter().map(|a| OsStr::from_bytes(a)).collect();
            let out = process::Command::new(env!("CARGO_BIN_EXE_spotcard")).args(args).current_dir(f.dir.path()).output().unwrap();
            (out.status.code().unwrap(), String::from_utf8(out.stdout).unwrap(), String::from_utf8(out.stderr).unwrap())
        };
        assert_eq!(run(&[b"new", name, b"--blocks", b"9"]).1, format!("{shown}: an empty card of 9 blocks, with room for 128 spots.\n"));
        assert_eq!(run(&[b"import", b"sheet.csv", name]).0, 0);
        assert_eq!(run(&[b"undo", name]).0, 0);
        let (code, out, err) = run(&[b"check", name]);
        assert!(code == 0 && err.is_empty() && out.lines().count() == 2, "{out}");
        assert!(run(&[b"new", name]).2.starts_with(&format!("spotcard: {shown} exists already")));
        let mut digest: OsString = OsStr::from_bytes(name).into();
        digest.push(".sha256");
        let sum = process::Command::new("sha256sum").arg("-c").arg(digest).current_dir(f.dir.path()).output();
        assert!(sum.is_ok_and(|out| out.status.success()), "{shown}");
    }
}

#[test]
fn a_card_that_can_not_be_made_leaves_nothing() {
    let f = Folder::new();
    f.write("sheet.csv", sheet(&spots(500, 3)));
    let program = env!("CARGO_BIN_EXE_spotcard");
    for command in ["new a.card --blocks 9", "press sheet.csv -o a.card"] {
        let script = format!("trap '' XFSZ; ulimit -f 8; exec {program} {command}");
        let out = process::Command::new("sh").args(["-c", &script]).current_dir(f.dir.path()).output().unwrap();
        let err = String::from_utf8_lossy(&out.stderr);
        assert!(out.status.code() == Some(3) && err.contains("a.card can't be saved"), "{err}");
        assert_eq!(fs::read_dir(f.dir.path()).unwrap().count(), 1, "{command}");
    }
}

#[test]
fn too_many_rows_are_named_first() {
    let f = Folder::new();
    let rows: Vec<_> = (0..70_000).map(|i| (i, 0, 0)).collect();
    f.card("a.card", 4096, &[(5, 0, 9)]);
    f.write("many.csv", sheet(&rows));
    let room = "spotcard: many.csv line 65522: no room for place 65520 rank 0. a.card is full with 65,520 spots, and 4,480 more would have to find room. No card holds more than 65,520.";
    let ran = f.run(&["import", "many.csv", "a.card"]).exit(1);
    assert!(ran.err.starts_with(room), "{}", ran.err);
    f.write("many.csv", sheet(&rows).replacen("\n7,0,0\n", "\n7,x,0\n", 1));
    let ran = f.run(&["import", "many.csv", "a.card"]).exit(1);
    let first =
        "many.csv line 65522: the sheet has 70,000 rows, and no card holds more than 65,520 spots\nmany.csv line 9: rank \"x\" is not";
    assert!(ran.err.starts_with(first), "{}", ran.err);
}

#[test]
fn several_spots_go_onto_a_card_as_one() {
    let f = Folder::new();
    f.card("a.card", 9, &[(0, 5, 1), (240, 7, 2)]);
    let said = "a.card: 4 spots: 2 new, 1 with another track, 1 on the card already; it holds 4 of 128 spots.\n";
    let args = ["add", "a.card", "0", "5", "1", "240", "7", "60", "-7", "-7", "7", "300", "-1", "4294967295"];
    assert_eq!(f.run(&args).exit(0).out, said);
    assert_eq!(f.run(&["export", "a.card"]).out, sheet(&[(-7, -7, 7), (0, 5, 1), (240, 7, 60), (300, -1, 4294967295)]));
    let before = f.read("a.card");
    assert!(f.run(&args).exit(0).out.contains("4 spots: 0 new, 0 with another track, 4 on the card already"));
    let refuses = |more: &[&str], code: i32, words: &str| {
        f.run(&[&["add", "a.card", "1", "1", "1"], more].concat()).exit(code).complains(words);
        assert_eq!(f.read("a.card"), before);
    };
    refuses(&["2", "2"], 2, "each spot has three numbers, PLACE RANK TRACK; the last one here has 2");
    refuses(&["1000001", "2", "2"], 2, "place 1000001: not a whole number from -1000000 to 1000000");
    refuses(&["2", "2147483648", "2"], 2, "rank 2147483648: not a whole number");
    refuses(&["2", "2", "-1"], 2, "track -1: not a whole number from 0 to 4294967295");
    refuses(&["2", "2", "2", "1", "1", "9"], 1, "place 1 rank 1 is given twice. Nothing was changed.");
    let many: Vec<String> = (0..125).flat_map(|i| [i.to_string(), "9".into(), "9".into()]).collect();
    let many: Vec<&str> = many.iter().map(String::as_str).collect();
    f.run(&[&["add", "a.card"], &many[..]].concat())
        .exit(1)
        .complains("no room for place 124 rank 9. a.card is full with 128 spots, and 1 more");
    assert_eq!(f.read("a.card"), before);
    f.run(&[&["add", "a.card"], &many[..372]].concat()).exit(0).says("124 spots: 124 new").says("it holds 128 of 128");
}
