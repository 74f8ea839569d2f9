//! Each command on real files.

mod common;
use common::{sheet, spots, Folder, BLOCK};
use std::collections::BTreeMap;
use std::os::unix::fs::PermissionsExt;
use std::{fs, process};

#[test]
fn a_sheet_goes_onto_a_card_and_comes_back() {
    let f = Folder::new();
    f.write("sheet.csv", "Title,track,Place,rank,room\n\"Vase, blue\",51,2400,7,1\nMask,60,-5,7,2\nLamp,4294967295,1000000,-2147483648,\n");
    f.run(&["new", "show.card", "--blocks", "9"]).exit(0).says("room for 128 spots");
    f.run(&["import", "sheet.csv", "show.card"]).exit(0).says("3 rows of sheet.csv: 3 new, 0 on the card already; it holds 3 of 128 spots");
    let rows = "place,rank,track\n-5,7,60\n2400,7,51\n1000000,-2147483648,4294967295\n";
    assert_eq!(f.run(&["export", "show.card"]).exit(0).out, rows);
    f.run(&["export", "show.card", "-o", "back.csv"]).exit(0).says("3 spots");
    assert_eq!(f.text("back.csv"), rows);
    f.run(&["diff", "show.card", "sheet.csv"]).exit(0).says("have the same 3 spots");
    f.run(&["import", "back.csv", "show.card"]).exit(0).says("0 new, 3 on the card already");
    f.run(&["new", "other.card", "--blocks", "9"]).exit(0);
    f.run(&["import", "back.csv", "other.card"]).exit(0);
    assert_eq!(f.run(&["export", "other.card"]).out, rows);
    f.run(&["check", "other.card"]).exit(0).says("other.card is sound.");
}

#[test]
fn import_joins_and_replace_makes_equal() {
    let f = Folder::new();
    f.card("show.card", 9, &[(0, 5, 1), (240, 7, 2)]);
    let before = f.read("show.card");
    f.write("more.csv", sheet(&[(10, 1, 9), (0, 5, 3)]));
    f.run(&["import", "more.csv", "show.card"])
        .exit(1)
        .complains("more.csv line 3: place 0 rank 5 is on show.card already (track 1, here 3)")
        .complains("Nothing was changed");
    assert_eq!(f.read("show.card"), before);
    f.run(&["import", "more.csv", "show.card", "--replace"]).exit(0).says("2 new, 0 on the card already, 2 withdrawn");
    assert_eq!(f.run(&["export", "show.card"]).out, sheet(&[(0, 5, 3), (10, 1, 9)]));
    f.write("third.csv", sheet(&[(10, 1, 9), (11, 1, 9)]));
    f.run(&["import", "third.csv", "show.card"]).exit(0).says("1 new, 1 on the card already; it holds 3 of 128");
}

#[test]
fn an_existing_file_is_kept_unless_forced() {
    let f = Folder::new();
    f.card("show.card", 9, &[(0, 5, 1)]);
    let before = f.read("show.card");
    f.run(&["new", "show.card"]).exit(1).complains("exists already");
    assert_eq!(f.read("show.card"), before);
    f.run(&["new", "show.card", "--force", "--blocks", "12"]).exit(0);
    assert_eq!(f.read("show.card").len(), 12 * BLOCK);
    f.run(&["check", "show.card"]).exit(0);
    assert_eq!(f.run(&["export", "show.card"]).out, "place,rank,track\n");
    f.write("mine.csv", "place,rank,track,title\n");
    f.run(&["export", "show.card", "-o", "mine.csv"]).exit(1).complains("--force");
    assert_eq!(f.text("mine.csv"), "place,rank,track,title\n");
    f.run(&["export", "show.card", "-o", "mine.csv", "--force"]).exit(0);
    assert_eq!(f.text("mine.csv"), "place,rank,track\n");
    for command in [&["export", "show.card", "-o", "show.card", "--force"][..], &["picture", "show.card", "-o", "show.card", "--force"]] {
        f.run(command).exit(1).complains("the card itself");
    }
}

#[test]
fn spots_are_added_replaced_and_withdrawn() {
    let f = Folder::new();
    f.run(&["new", "a.card", "--blocks", "9"]).exit(0);
    f.run(&["add", "a.card", "-240", "-7", "2"]).exit(0).says("added place -240 rank -7 track 2; it holds 1 of 128");
    f.run(&["add", "a.card", "-240", "-7", "3"]).exit(0).says("track 2 is now 3; it holds 1 of 128");
    f.run(&["add", "a.card", "-240", "-7", "3"]).exit(0).says("nothing changes");
    f.run(&["withdraw", "a.card", "-240", "-7", "9"]).exit(1).complains("with track 3, not 9");
    f.run(&["withdraw", "a.card", "0", "0"]).exit(0).says("no spot of place 0 rank 0; nothing changes");
    f.run(&["withdraw", "a.card", "-240", "-7", "3"]).exit(0).says("withdrew place -240 rank -7 track 3; it holds 0");
    f.run(&["check", "a.card"]).exit(0);
}

#[test]
fn places_have_an_end() {
    let f = Folder::new();
    f.card("a.card", 9, &[(-1_000_000, 5, 1), (1_000_000, 5, 2)]);
    let files = || ["a.card", "a.card.sha256"].map(|name| f.read(name));
    let before = files();
    for place in ["-1000001", "1000001", "2147483647", "-2147483648", "4294967296"] {
        let words = format!("'{place}' for '<PLACE>': not a whole number from -1000000 to 1000000");
        f.run(&["add", "a.card", place, "5", "3"]).exit(2).complains(&words);
        f.run(&["withdraw", "a.card", place, "5"]).exit(2).complains(&words);
        f.write("far.csv", format!("place,rank,track\n7,7,7\n{place},5,3\n"));
        for more in [&[][..], &["--replace"]] {
            f.run(&[&["import", "far.csv", "a.card"], more].concat())
                .exit(1)
                .complains(&format!("far.csv line 3: place \"{place}\" is not a whole number from -1000000 to 1000000\n"))
                .complains("1 error in far.csv. Nothing was changed.");
        }
        f.run(&["diff", "a.card", "far.csv"]).exit(1).complains("far.csv line 3: place");
        assert_eq!(files(), before);
    }
    // the ends of a range are any numbers
    let both = sheet(&[(-1_000_000, 5, 1), (1_000_000, 5, 2)]);
    for (x1, x2) in [("-2147483648", "2147483647"), ("-1000001", "1000001"), ("-1000000", "1000000"), ("1000001", "1000000")] {
        assert_eq!(f.run(&["report", "a.card", x1, x2, "0", "--csv"]).exit(0).out, both);
        assert_eq!(f.run(&["top", "a.card", x1, x2, "9", "--csv"]).exit(0).out, both);
        assert_eq!(f.run(&["top", "a.card", x1, x2, "9", "--allow", "1", "--csv"]).exit(0).out, both);
        f.run(&["report", "a.card", x1, x2, "0", "1000001", "-1000001", "0"]).exit(0).says("range 2: 0 spots").says("2 spots in 2 ranges");
        f.run(&["picture", "a.card", "--report", x1, x2, "0", "-o", "a.svg"]).exit(0);
    }
    for (place, track) in [("-1000000", "1"), ("1000000", "2")] {
        f.run(&["withdraw", "a.card", place, "5", track]).exit(0).says("withdrew place");
        f.run(&["add", "a.card", place, "6", "9"]).exit(0).says("added place");
    }
    f.run(&["check", "a.card"]).exit(0);
    for command in ["add", "withdraw", "import"] {
        f.run(&["help", command]).exit(0).says("-1000000 to 1000000");
    }
}

#[test]
fn a_full_card_names_the_row_that_has_no_room() {
    let f = Folder::new();
    let all = spots(135, 3);
    f.write("all.csv", sheet(&all));
    f.run(&["new", "a.card", "--blocks", "9"]).exit(0);
    let before = f.read("a.card");
    let (place, rank, _) = all[128];
    f.run(&["import", "all.csv", "a.card"])
        .exit(1)
        .complains(&format!("all.csv line 130: no room for place {place} rank {rank}. a.card is full with 128 spots, and 7 more"))
        .complains("--blocks 10");
    assert_eq!(f.read("a.card"), before);
    f.run(&["import", "all.csv", "a.card", "--replace"]).exit(1).complains("all.csv line 130: no room for");
    f.card("b.card", 9, &all[..128]);
    f.run(&["import", "all.csv", "b.card"]).exit(1).complains("all.csv line 130: no room for").complains("7 more");
    let place = place.to_string();
    f.run(&["add", "b.card", &place, &rank.to_string(), "1"]).exit(1).complains("b.card is full with 128 spots, and 1 more");
    let (place, rank, _) = all[0];
    f.run(&["add", "b.card", &place.to_string(), &rank.to_string(), "77"]).exit(0).says("it holds 128 of 128");
}

#[test]
fn reports_and_tops_are_shown_in_their_order() {
    let f = Folder::new();
    f.card("a.card", 32, &[(0, 5, 1), (240, 7, 2), (0, 7, 3), (300, 1, 4)]);
    assert_eq!(f.run(&["report", "a.card", "0", "240", "6", "--csv"]).exit(0).out, "place,rank,track\n0,7,3\n240,7,2\n");
    assert_eq!(f.run(&["top", "a.card", "0", "300", "3", "--csv"]).exit(0).out, "place,rank,track\n0,7,3\n240,7,2\n0,5,1\n");
    assert_eq!(f.run(&["top", "a.card", "0", "300", "1", "--csv"]).exit(0).out, "place,rank,track\n0,7,3\n");
    f.run(&["report", "a.card", "0", "300", "-9", "--blocks"])
        .exit(0)
        .says("4 spots from 0 to 300 cm with rank -9 or more")
        .says("2 blocks read of 32: 0 1");
    f.run(&["top", "a.card", "0", "300", "0", "--csv", "--blocks"]).exit(0).complains("1 block read of 32: 0");
}

#[test]
fn ranges_run_on_past_the_door() {
    let f = Folder::new();
    f.card("a.card", 32, &[(-5, 5, 1), (0, 7, 2), (100, 9, 3), (240, 5, 4), (240, 7, 5), (300, 1, 6)]);
    let report = |x1: &str, x2: &str, y: &str| f.run(&["report", "a.card", x1, x2, y, "--csv"]).exit(0);
    let ran = report("240", "0", "5");
    assert_eq!((ran.out, ran.err), (sheet(&[(240, 5, 4), (240, 7, 5), (-5, 5, 1), (0, 7, 2)]), String::new()));
    assert_eq!(report("241", "-6", "0").out, sheet(&[(300, 1, 6)]));
    assert_eq!(report("301", "-6", "-9").out, sheet(&[]));
    assert_eq!(report("1", "0", "7").out, sheet(&[(100, 9, 3), (240, 7, 5), (0, 7, 2)]));
    assert_eq!(report("2147483647", "-2147483648", "0").out, sheet(&[]));
    assert_eq!(f.run(&["top", "a.card", "240", "0", "2", "--csv"]).exit(0).out, sheet(&[(0, 7, 2), (240, 7, 5)]));
    assert_eq!(
        f.run(&["top", "a.card", "240", "0", "9", "--csv"]).exit(0).out,
        sheet(&[(0, 7, 2), (240, 7, 5), (-5, 5, 1), (240, 5, 4), (300, 1, 6)])
    );
    f.run(&["report", "a.card", "240", "0", "6"]).exit(0).says("2 spots from 240 cm on past the door to 0 cm with rank 6 or more\n");
    f.run(&["top", "a.card", "300", "-5", "1"]).exit(0).says("the best 1 spot from 300 cm on past the door to -5 cm\n");
    for command in ["report", "top"] {
        f.run(&["help", command]).exit(0).says("runs on past the door");
    }
}

#[test]
fn several_ranges_are_shown_one_after_the_other() {
    let f = Folder::new();
    f.card("a.card", 32, &[(-5, 5, 1), (0, 7, 2), (100, 9, 3), (240, 5, 4), (240, 7, 5), (300, 1, 6)]);
    let ranges = ["report", "a.card", "-9", "240", "7", "240", "0", "5", "301", "400", "-9", "0", "100", "8"];
    let run = |more: &[&str]| f.run(&[&ranges[..], more].concat()).exit(0);
    let table = "\
range 1: 3 spots from -9 to 240 cm with rank 7 or more
      place        rank      track
          0           7          2
        100           9          3
        240           7          5
range 2: 4 spots from 240 cm on past the door to 0 cm with rank 5 or more
      place        rank      track
        240           5          4
        240           7          5
         -5           5          1
          0           7          2
range 3: 0 spots from 301 to 400 cm with rank -9 or more
range 4: 1 spot from 0 to 100 cm with rank 8 or more
      place        rank      track
        100           9          3
8 spots in 4 ranges
";
    let ran = run(&[]);
    assert_eq!((ran.out.as_str(), ran.err.as_str()), (table, ""));
    assert_eq!(run(&["--blocks"]).out, format!("{table}2 blocks read of 32: 0 1\n"));
    let csv = "range,place,rank,track\n1,0,7,2\n1,100,9,3\n1,240,7,5\n2,240,5,4\n2,240,7,5\n2,-5,5,1\n2,0,7,2\n4,100,9,3\n";
    let ran = run(&["--csv", "--blocks"]).complains("2 blocks read of 32: 0 1");
    assert_eq!(ran.out, csv);
    // one range is shown as ever
    assert!(f.run(&ranges[..5]).exit(0).out.starts_with("3 spots from -9 to 240 cm with rank 7 or more\n"));
    let times = |n: usize| [vec!["report", "a.card"], vec!["-9"; 3 * n]].concat();
    f.run(&times(64)).exit(0).says("range 64: 0 spots from -9 to -9 cm").says("0 spots in 64 ranges");
    let ran = f.run(&times(65)).exit(1).complains("at most 64 ranges can be asked for at once");
    assert_eq!(ran.out, "");
    for (more, left) in [(1, 1), (2, 2), (4, 1)] {
        let args = [&ranges[..5], &vec!["0"; more]].concat();
        f.run(&args).exit(2).complains(&format!("each range has three numbers, X1 X2 Y; the last one here has {left}"));
    }
    f.run(&["report", "a.card", "0", "9", "5", "1", "x", "3"]).exit(2).complains("not a whole number");
    f.run(&["help", "report"]).exit(0).says("[X1 X2 Y]...").says("Up to 64 ranges");
}

#[test]
fn a_top_with_few_nodes_says_what_is_certain() {
    let f = Folder::new();
    f.card("a.card", 32, &[(0, 5, 1), (240, 7, 2), (0, 7, 3), (300, 1, 4)]);
    let ask = |k: &str, nodes: &str, more: &[&str]| f.run(&[&["top", "a.card", "0", "300", k, "--allow", nodes], more].concat()).exit(0);
    let two = "\
the best 2 spots from 0 to 300 cm
      place        rank      track
          0           7          3
        240           7          2
1 node read: these are all that were asked for
";
    let ran = ask("2", "1", &[]);
    assert_eq!((ran.out.as_str(), ran.err.as_str()), (two, ""));
    assert_eq!(ask("2", "4294967295", &["--blocks"]).out, format!("{two}2 blocks read of 32: 0 1\n"));
    let ran = ask("9", "5", &["--csv", "--blocks"]);
    assert_eq!(ran.out, sheet(&[(0, 7, 3), (240, 7, 2), (0, 5, 1), (300, 1, 4)]));
    assert_eq!(ran.err, "spotcard: 1 node read: nothing else stands there\nspotcard: 2 blocks read of 32: 0 1\n");
    ask("9", "1", &[]).says("\n1 node read: nothing else stands there, except perhaps with the lowest rank of all, -2147483648\n");
    assert_eq!(ask("0", "9", &[]).out, "the best 0 spots from 0 to 300 cm\n0 nodes read: these are all that were asked for\n");
    let nothing = "the best 0 spots from 0 to 300 cm\n0 nodes read: others may still stand there, up to rank 2147483647\n";
    assert_eq!(ask("9", "0", &[]).out, nothing);
    f.run(&["help", "top"]).exit(0).says("--allow <N>").says("certain");
}

/// More nodes show no fewer spots and no higher rank, up to the whole top; what is shown begins it, and what isn't is no higher than is said.
#[test]
fn every_number_of_nodes_leads_to_the_top() {
    let f = Folder::new();
    f.card("a.card", 80, &spots(900, 9));
    let mut between = 0;
    for (x1, x2, k) in [("0", "100000", 40), ("20000", "70000", 5000), ("70000", "20000", 200)] {
        let top = |args: &[&str]| {
            let ran = f.run(&[&["top", "a.card", x1, x2], args, &["--csv"]].concat()).exit(0);
            (ran.out.lines().skip(1).map(String::from).collect::<Vec<_>>(), ran.err)
        };
        let rank = |row: &String| row.split(',').nth(1).unwrap().parse::<i32>().unwrap();
        let (all, _) = top(&["5000"]);
        let (mut least, mut most) = (0, i32::MAX);
        for nodes in 0.. {
            let (shown, words) = top(&[&k.to_string(), "--allow", &nodes.to_string()]);
            assert!(all.starts_with(&shown) && least <= shown.len(), "{nodes}: {shown:?}");
            least = shown.len();
            let Some((_, highest)) = words.split_once("others may still stand there, up to rank ") else {
                let end = if least == k { "these are all that were asked for" } else { "nothing else stands there" };
                assert!(words.contains(end) && least == all.len().min(k), "{nodes}: {words}");
                break;
            };
            let highest: i32 = highest.trim_end().parse().unwrap();
            assert!(highest <= most && shown.iter().all(|row| rank(row) > highest), "{nodes}: {words}");
            assert!(all[least..].iter().all(|row| rank(row) <= highest), "{nodes}: {words}");
            most = highest;
            between += (least > 0) as usize;
        }
    }
    assert!(between > 5, "{between} answers between nothing and all");
}

#[test]
fn many_reports_and_tops_agree_with_a_plain_list() {
    let f = Folder::new();
    agree_with_a_plain_list(&f, "a.card", spots(900, 9));
    // whole rows of one rank
    let few = spots(900, 10).into_iter().map(|(place, rank, track)| ((place, rank % 3), track)).collect::<BTreeMap<_, _>>();
    agree_with_a_plain_list(&f, "b.card", few.into_iter().map(|((place, rank), track)| (place, rank, track)).collect());
}

fn agree_with_a_plain_list(f: &Folder, card: &str, mut all: Vec<(i32, i32, u32)>) {
    f.card(card, 80, &all);
    all.sort();
    let mut random = common::Random(77);
    let (mut asked, mut rows) = (vec!["report".to_string(), card.to_string()], "range,place,rank,track\n".to_string());
    for number in 1..=25 {
        // every other range runs on past the door, on average
        let (x1, x2) = (random.below(100_000) as i32, random.below(100_000) as i32);
        let (y, k) = (random.below(1000) as i32, random.below(60) as usize);
        let stretches = if x1 <= x2 { vec![(x1, x2)] } else { vec![(x1, i32::MAX), (i32::MIN, x2)] };
        let held = |(first, last): (i32, i32)| all.iter().copied().filter(move |s| first <= s.0 && s.0 <= last);
        let mut top: Vec<_> = stretches.into_iter().flat_map(held).collect();
        let report: Vec<_> = top.iter().copied().filter(|s| s.1 >= y).collect();
        top.sort_by_key(|s| (std::cmp::Reverse(s.1), s.0));
        top.truncate(k);
        let [x1, x2, y, k] = [x1.to_string(), x2.to_string(), y.to_string(), k.to_string()];
        assert_eq!(f.run(&["report", card, &x1, &x2, &y, "--csv"]).exit(0).out, sheet(&report));
        assert_eq!(f.run(&["top", card, &x1, &x2, &k, "--csv"]).exit(0).out, sheet(&top));
        asked.extend([x1, x2, y]);
        rows.extend(report.iter().map(|(place, rank, track)| format!("{number},{place},{rank},{track}\n")));
    }
    asked.push("--csv".into());
    let asked: Vec<&str> = asked.iter().map(String::as_str).collect();
    assert_eq!(f.run(&asked).exit(0).out, rows);
}

#[test]
fn info_and_rebuild_tell_what_waits() {
    let f = Folder::new();
    f.waiting_card("a.card", 128, &spots(1500, 5));
    let info = f.run(&["info", "a.card"]).exit(0).says("1,500 of 2,032").says("additions and").says("levels").out;
    assert!(info.contains("128 of 2,048 bytes (262,144 bytes)"), "{info}");
    let before = f.run(&["export", "a.card"]).out;
    f.run(&["rebuild", "a.card"]).exit(0).says("it holds 1,500 of 2,032 spots");
    f.run(&["info", "a.card"]).exit(0).says("waiting changes  none");
    assert_eq!(f.run(&["export", "a.card"]).out, before);
    f.run(&["check", "a.card"]).exit(0);
}

#[test]
fn differences_are_named_on_both_sides() {
    let f = Folder::new();
    f.card("a.card", 9, &[(0, 5, 1), (240, 7, 2), (300, 1, 4)]);
    f.write("b.csv", sheet(&[(300, 1, 4), (240, 7, 60), (7, 7, 7)]));
    let out = f.run(&["diff", "a.card", "b.csv"]).exit(1).out;
    let lines = [
        "only on the card:   place 0 rank 5 track 1",
        "only in the sheet:  place 7 rank 7 track 7 (line 4)",
        "only on the card:   place 240 rank 7 track 2",
        "only in the sheet:  place 240 rank 7 track 60 (line 3)\n",
    ];
    assert_eq!(out, lines.join("\n"));
    let csv = f.run(&["diff", "a.card", "b.csv", "--csv"]).exit(1).out;
    assert_eq!(csv, "only_in,place,rank,track,line\ncard,0,5,1,\nsheet,7,7,7,4\ncard,240,7,2,\nsheet,240,7,60,3\n");
}

#[test]
fn a_changed_track_byte_is_found_by_the_digest() {
    let f = Folder::new();
    f.card("a.card", 9, &[(0, 5, 1), (240, 7, 2)]);
    f.run(&["check", "a.card"]).exit(0).says("those that spotcard wrote");
    let mut bytes = f.read("a.card");
    bytes[BLOCK + 8 + 11] ^= 64;
    f.write("a.card", &bytes);
    f.run(&["check", "a.card"]).exit(1).says("a.card is sound.").says("NOT those that spotcard wrote");
    f.run(&["report", "a.card", "0", "9", "0"]).exit(0).complains("warning: a.card is not as spotcard left it");
    f.run(&["add", "a.card", "1", "1", "1"]).exit(1).complains("delete a.card.sha256");
    assert_eq!(f.read("a.card"), bytes);
    fs::remove_file(f.path("a.card.sha256")).unwrap();
    f.run(&["check", "a.card"]).exit(0).says("There is no a.card.sha256");
    f.run(&["add", "a.card", "1", "1", "1"]).exit(0);
    f.run(&["check", "a.card"]).exit(0).says("those that spotcard wrote");
}

#[test]
fn the_digest_is_the_one_that_sha256sum_knows() {
    let f = Folder::new();
    f.card("a.card", 9, &[(0, 5, 1)]);
    let run = process::Command::new("sha256sum").args(["-c", "a.card.sha256"]).current_dir(f.dir.path()).output();
    if let Ok(run) = run {
        assert!(run.status.success(), "{run:?}");
    }
}

#[test]
fn wrong_command_lines_end_with_2() {
    let f = Folder::new();
    let rows: [&[&str]; 11] = [
        &[],
        &["make", "a.card"],
        &["new"],
        &["new", "a.card", "--blocks", "8"],
        &["new", "a.card", "--blocks", "4097"],
        &["add", "a.card", "1", "2"],
        &["add", "a.card", "1", "2147483648", "3"],
        &["add", "a.card", "1000001", "2", "3"],
        &["top", "a.card", "0", "9", "-1"],
        &["top", "a.card", "0", "9", "1", "--allow", "-1"],
        &["picture", "a.card", "--top", "0", "9", "-1", "-o", "a.svg"],
    ];
    for args in rows {
        let ran = f.run(args).exit(2);
        assert!(!ran.err.is_empty());
    }
    f.run(&["add", "a.card", "1", "x", "3"]).exit(2).complains("not a whole number from -2147483648 to 2147483647");
    assert_eq!(fs::read_dir(f.dir.path()).unwrap().count(), 0);
    f.run(&["--help"]).exit(0).says("spotcard new show.card");
    for command in [
        "new", "import", "export", "diff", "add", "withdraw", "report", "top", "info", "check", "rebuild", "press", "picture", "undo",
        "salvage", "send", "apply",
    ] {
        f.run(&[command, "--help"]).exit(0).says("Usage: spotcard");
    }
}

#[test]
fn files_in_the_way_end_with_3_and_files_that_are_no_cards_with_1() {
    let f = Folder::new();
    f.write("sheet.csv", "place,rank,track\n");
    f.run(&["check", "no.card"]).exit(3).complains("there is no card no.card. `spotcard new no.card` makes an empty one");
    f.run(&["import", "sheet.csv", "no.card"]).exit(3).complains("there is no card");
    f.run(&["new", "no/such/folder.card"]).exit(3).complains("there is no such file or folder");
    fs::create_dir(f.path("folder")).unwrap();
    f.run(&["check", "folder"]).exit(3).complains("is not a file");
    f.run(&["new", "folder", "--force"]).exit(3).complains("is a folder");
    f.run(&["new", "a.card", "--blocks", "9"]).exit(0);
    f.run(&["import", "none.csv", "a.card"]).exit(3).complains("none.csv can't be read: there is no such file");
    f.run(&["export", "a.card", "-o", "/dev/full"]).exit(3).complains("the disk is full");
    for length in [0, 100, 8 * BLOCK, 9 * BLOCK + 1, 4097 * BLOCK] {
        f.write("odd.card", vec![0; length]);
        f.run(&["check", "odd.card"]).exit(1).complains("is not a card");
        f.run(&["add", "odd.card", "1", "1", "1"]).exit(1).complains("is not a card");
        assert_eq!(f.read("odd.card").len(), length);
    }
}

#[test]
fn a_broken_pipe_is_quiet() {
    let f = Folder::new();
    f.card("a.card", 300, &spots(4000, 8));
    let program = env!("CARGO_BIN_EXE_spotcard");
    let script = format!("{program} export a.card | head -n 1");
    let run = process::Command::new("sh").args(["-c", &script]).current_dir(f.dir.path()).output().unwrap();
    assert_eq!(String::from_utf8_lossy(&run.stdout), "place,rank,track\n");
    assert_eq!(String::from_utf8_lossy(&run.stderr), "");
}

#[test]
fn links_and_permissions_stay() {
    let f = Folder::new();
    f.card("real.card", 9, &[(0, 5, 1)]);
    fs::set_permissions(f.path("real.card"), fs::Permissions::from_mode(0o640)).unwrap();
    std::os::unix::fs::symlink("real.card", f.path("link.card")).unwrap();
    f.run(&["add", "link.card", "1", "1", "1"]).exit(0);
    assert!(fs::symlink_metadata(f.path("link.card")).unwrap().is_symlink());
    assert!(!f.path("link.card.sha256").exists());
    let about = fs::metadata(f.path("real.card")).unwrap();
    assert_eq!(about.permissions().mode() & 0o777, 0o640);
    f.run(&["check", "real.card"]).exit(0).says("those that spotcard wrote");
    let program = env!("CARGO_BIN_EXE_spotcard");
    let script = format!("umask 027; {program} new new.card --blocks 9 && {program} export new.card -o new.csv");
    let run = process::Command::new("sh").args(["-c", &script]).current_dir(f.dir.path()).output().unwrap();
    assert!(run.status.success());
    for name in ["new.card", "new.card.sha256", "new.csv"] {
        assert_eq!(fs::metadata(f.path(name)).unwrap().permissions().mode() & 0o777, 0o640, "{name}");
    }
}

#[test]
fn pictures_are_drawn_for_few_and_for_many() {
    let f = Folder::new();
    f.card("few.card", 9, &spots(50, 4));
    f.run(&["picture", "few.card", "-o", "few.svg"]).exit(0);
    let few = f.text("few.svg");
    assert_eq!(few.matches("settled in block").count(), 50);
    assert!(few.starts_with("<svg") && few.ends_with("</svg>\n"));
    f.card("many.card", 400, &spots(6000, 4));
    f.run(&["picture", "many.card", "--report", "0", "50000", "900", "-o", "many.svg"]).exit(0);
    let many = f.text("many.svg");
    assert!(many.contains("class=\"query\"") && many.len() < 2_000_000);
    f.run(&["picture", "many.card", "--top", "-5", "50000", "9", "-o", "many.svg"]).exit(0);
    f.write("mine.svg", "<svg>mine</svg>");
    f.run(&["picture", "few.card", "-o", "mine.svg"]).exit(1).complains("exists already");
    assert_eq!(f.text("mine.svg"), "<svg>mine</svg>");
    f.run(&["new", "none.card", "--blocks", "9"]).exit(0);
    f.run(&["picture", "none.card", "-o", "none.svg"]).exit(0);
    assert!(f.text("none.svg").contains("no spots on this card"));
}

#[test]
fn a_picture_shows_both_stretches_past_the_door() {
    let f = Folder::new();
    let all: Vec<_> = (0..100).map(|i| (100 * i, i % 10, i as u32)).collect();
    f.card("a.card", 32, &all);
    let draw = |query: [&str; 4]| {
        let [what, x1, x2, y] = query;
        f.run(&["picture", "a.card", what, x1, x2, y, "-o", "a.svg"]).exit(0);
        f.text("a.svg")
    };
    let shaded = |svg: &str| svg.matches("fill-opacity=\"0.06\"").count();
    let ringed = |svg: &str| svg.matches("fill=\"none\" stroke=\"#000\"").count();
    let ring = draw(["--report", "9000", "990", "5"]);
    assert_eq!((shaded(&ring), ringed(&ring)), (2, 10));
    assert_eq!(ring.matches("class=\"query fine\"").count(), 2);
    assert!(ring.contains("report past the door<") && ring.contains("places 9000 on to 990<") && ring.contains("10 spots found"));
    let best = draw(["--top", "9000", "990", "3"]);
    assert_eq!((shaded(&best), ringed(&best)), (2, 3));
    assert!(best.contains("top past the door<") && !best.contains("outside this picture"));
    let plain = draw(["--report", "990", "9000", "5"]);
    assert!(shaded(&plain) == 1 && plain.contains(">report<") && plain.contains("places 990 to 9000<"));
    // one stretch alone is shown, or none
    let behind = draw(["--report", "9000", "-70000", "5"]);
    assert!(shaded(&behind) == 1 && !behind.contains("outside this picture"));
    let outside = draw(["--report", "70000", "-70000", "5"]);
    assert!(shaded(&outside) == 0 && outside.contains("it lies outside this picture"));
}

#[test]
fn a_write_protected_card_is_left_as_it_is() {
    let f = Folder::new();
    f.card("a.card", 9, &[(0, 5, 1)]);
    let before = f.read("a.card");
    fs::set_permissions(f.path("a.card"), fs::Permissions::from_mode(0o444)).unwrap();
    f.run(&["add", "a.card", "1", "1", "1"]).exit(3).complains("a.card is write-protected");
    f.run(&["new", "a.card", "--force"]).exit(3);
    f.run(&["report", "a.card", "0", "9", "0"]).exit(0);
    assert_eq!(f.read("a.card"), before);
}

#[test]
fn card_and_sheet_in_the_wrong_order_are_noticed() {
    let f = Folder::new();
    f.card("a.card", 9, &[(0, 5, 1)]);
    f.write("sheet.csv", sheet(&[(0, 5, 1)]));
    f.run(&["import", "a.card", "sheet.csv"]).exit(1).complains("a.card is a card, not a sheet. The order is: import SHEET.csv CARD.");
    f.run(&["diff", "sheet.csv", "a.card"]).exit(0);
}
