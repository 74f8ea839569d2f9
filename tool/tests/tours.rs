//! Pressed tours: made from a sheet, asked like cards, and turned down where only a card will do.

mod common;
use common::{sheet, spots, Folder, Random, BLOCK};
use std::fs::{self, File};
use std::os::unix::fs::PermissionsExt;
use std::process;

type Spot = (i32, i32, u32);

impl Folder {
    /// A tour of these spots.
    fn tour(&self, name: &str, spots: &[Spot]) {
        self.write("made.csv", sheet(spots));
        self.run(&["press", "made.csv", "-o", name]).exit(0);
    }

    fn names(&self) -> Vec<String> {
        let entries = fs::read_dir(self.dir.path()).unwrap();
        let mut names: Vec<String> = entries.map(|e| e.unwrap().file_name().into_string().unwrap()).collect();
        names.sort();
        names
    }
}

#[test]
fn a_sheet_in_any_order_becomes_a_tour() {
    let f = Folder::new();
    f.write("sheet.csv", "Title,track,Place,rank\n\"Vase, blue\",51,2400,7\nMask,60,-5,7\nLamp,4294967295,1000000,-2147483648\n,0,-5,-7\n");
    let said = "show.tour: a tour of the 4 spots of sheet.csv, in 2 blocks of 2,048 bytes.\n";
    assert_eq!(f.run(&["press", "sheet.csv", "-o", "show.tour"]).exit(0).out, said);
    assert_eq!(f.names(), ["sheet.csv", "show.tour", "show.tour.lock", "show.tour.sha256"]);
    let tour = f.read("show.tour");
    assert_eq!((tour.len(), &tour[..12]), (2 * BLOCK, &[0, 0, 16, 0, 1, 0, 0, 0, 0, 0, 0, 4][..]));
    let all = f.run(&["report", "show.tour", "-1000000", "1000000", "-2147483648", "--csv"]).exit(0).out;
    assert_eq!(all, "place,rank,track\n-5,-7,0\n-5,7,60\n2400,7,51\n1000000,-2147483648,4294967295\n");
    // the sheet of a tour gives the same tour
    f.write("back.csv", all);
    f.run(&["press", "back.csv", "--output", "again.tour"]).exit(0);
    assert_eq!(f.read("again.tour"), tour);
    let info = "\
pressed tour     show.tour
blocks           2 of 2,048 bytes (4,096 bytes)
spots            4 of at most 512
digest           the tour is as show.tour.sha256 has it
";
    assert_eq!(f.run(&["info", "show.tour"]).exit(0).out, info);
    f.write("none.csv", "place,rank,track\n");
    f.run(&["press", "none.csv", "-o", "none.tour"]).exit(0).says("a tour of the 0 spots of none.csv, in 1 block of");
    assert_eq!(f.run(&["report", "none.tour", "0", "9", "0"]).exit(0).out, "0 spots from 0 to 9 cm with rank 0 or more\n");
    f.run(&["info", "none.tour"]).exit(0).says("0 of at most 512");
}

/// A report of a tour prints what the report of a card with the same spots prints, ranges past the door and many ranges too; the blocks are the tour's own.
#[test]
fn reports_are_those_of_a_card() {
    let f = Folder::new();
    let mut random = Random(303);
    for n in [1, 64, 65, 130, 512] {
        let all = spots(n, 1 + n as u64);
        f.card("a.card", 64, &all);
        f.tour("a.tour", &all);
        let blocks = 2 * n.div_ceil(64);
        assert_eq!(f.read("a.tour").len(), BLOCK * blocks);
        let mut ranges = vec![];
        for _ in 0..12 {
            let own = [random.below(110_000) as i32 - 5000, random.below(110_000) as i32 - 5000, random.below(1100) as i32 - 50];
            let own = own.map(|x| x.to_string());
            let ask = |file: &str, more: &[&str]| f.run(&[&["report", file, &own[0], &own[1], &own[2]], more].concat()).exit(0).out;
            assert_eq!(ask("a.tour", &[]), ask("a.card", &[]));
            assert_eq!(ask("a.tour", &["--csv"]), ask("a.card", &["--csv"]));
            let read = ask("a.tour", &["--blocks"]);
            let last = read.lines().last().unwrap();
            let (count, numbers) = last.split_once(&format!(" read of {blocks}: ")).unwrap();
            let numbers: Vec<usize> = numbers.split(' ').map(|b| b.parse().unwrap()).collect();
            assert!(numbers[0] == 0 && numbers.iter().all(|b| *b < blocks) && count.starts_with(&numbers.len().to_string()), "{last}");
            ranges.extend(own);
        }
        let ask = |file: &str, more: &[&str]| {
            let ranges: Vec<&str> = ranges.iter().map(String::as_str).collect();
            f.run(&[&["report", file], &ranges[..], more].concat()).exit(0).out
        };
        assert_eq!(ask("a.tour", &[]), ask("a.card", &[]));
        assert_eq!(ask("a.tour", &["--csv"]), ask("a.card", &["--csv"]));
        assert!(ask("a.tour", &["--blocks"]).contains(&format!(" read of {blocks}: 0")));
        for name in ["a.card", "a.tour"] {
            fs::remove_file(f.path(name)).unwrap();
        }
    }
    f.tour("b.tour", &[(0, 5, 1)]);
    let many = ["0"; 3 * 65];
    f.run(&[&["report", "b.tour"], &many[..]].concat()).exit(1).complains("at most 64 ranges");
    f.run(&[&["report", "b.tour"], &many[..3 * 64]].concat()).exit(0).says("64 spots in 64 ranges");
}

/// Every wrong row is named with its line, too many are counted, and nothing is written.
#[test]
fn sheets_that_are_refused_leave_nothing() {
    let f = Folder::new();
    let refused = |text: &str| {
        f.write("sheet.csv", text);
        let ran = f.run(&["press", "sheet.csv", "-o", "show.tour"]).exit(1);
        assert_eq!((ran.out.as_str(), f.names()), ("", vec!["sheet.csv".to_string()]));
        ran.err
    };
    let wrong = "\
sheet.csv line 3: place \"1000001\" is not a whole number from -1000000 to 1000000
sheet.csv line 4: rank is empty
sheet.csv line 5: place 2400 rank 7 stands already in line 2 (track 51, here 60)
spotcard: 3 errors in sheet.csv. Nothing was changed. Correct the sheet and try again.
";
    assert_eq!(refused("place,rank,track\n2400,7,51\n1000001,1,1\n5,,1\n2400,7,60\n"), wrong);
    let rows = |n: i32| (0..n).map(|i| (700 - i, i % 5, i as u32)).collect::<Vec<_>>();
    let more = refused(&format!("{}\n\n", sheet(&rows(600)).replacen('\n', "\n\n", 1)));
    assert!(
        more.contains("sheet.csv line 515: no room for place 188 rank 2. sheet.csv has 600 spots, and a tour has at most 512."),
        "{more}"
    );
    assert!(more.contains("Nothing was changed. A card has room for more"), "{more}");
    assert!(refused("").contains("sheet.csv is empty"));
    f.tour("show.tour", &rows(512));
    assert_eq!(f.read("show.tour").len(), 16 * BLOCK);
    f.run(&["press", "no.csv", "-o", "b.tour"]).exit(3).complains("no.csv can't be read: there is no such file");
    for args in [&["press", "made.csv"][..], &["press", "-o", "b.tour"], &["press", "made.csv", "b.tour"]] {
        f.run(args).exit(2);
    }
}

#[test]
fn an_existing_file_is_kept_unless_forced() {
    let f = Folder::new();
    f.card("a.card", 16, &spots(40, 3));
    f.tour("a.tour", &[(0, 5, 1)]);
    f.write("sheet.csv", sheet(&[(0, 5, 1), (7, 7, 7)]));
    f.write("notes.txt", "mine");
    for name in ["a.card", "a.tour", "notes.txt"] {
        let before = f.read(name);
        f.run(&["press", "sheet.csv", "-o", name]).exit(1).complains("exists already").complains("--force");
        assert_eq!(f.read(name), before);
        if name != "a.tour" {
            f.run(&["press", "sheet.csv", "-o", name, "--force"]).exit(1).complains("--force replaces nothing but a pressed tour here");
            assert_eq!(f.read(name), before);
            continue;
        }
        f.run(&["press", "sheet.csv", "-o", name, "--force"]).exit(0);
        let ran = f.run(&["info", name]).exit(0).says("2 of at most 512").says(&format!("the tour is as {name}.sha256 has it"));
        assert_eq!(ran.err, "");
    }
    // no card in the place of a tour
    f.run(&["new", "a.tour", "--blocks", "10"]).exit(1).complains("a.tour exists already and is a pressed tour");
    f.run(&["new", "a.tour", "--blocks", "10", "--force"]).exit(1).complains("--force replaces nothing but a card here");
    f.run(&["check", "a.tour"]).exit(0).says("a.tour is a pressed tour, and is sound.").says("those that spotcard wrote");
    f.run(&["press", "sheet.csv", "-o", "sheet.csv", "--force"]).exit(1).complains("sheet.csv is the sheet itself");
    assert_eq!(f.text("sheet.csv"), sheet(&[(0, 5, 1), (7, 7, 7)]));
    fs::create_dir(f.path("folder")).unwrap();
    f.run(&["press", "sheet.csv", "-o", "folder", "--force"]).exit(3).complains("is a folder");
    f.run(&["press", "sheet.csv", "-o", "no/such.tour"]).exit(3).complains("there is no such file or folder");
    for command in [&["press", "sheet.csv", "-o", "/dev/full", "--force"][..], &["new", "/dev/full", "--force"]] {
        f.run(command).exit(3).complains("/dev/full is not a file");
    }
    assert_eq!(f.left_behind(), [] as [&str; 0]);
}

/// Written as a card is: as one, with its permissions, by one at a time.
#[test]
fn a_tour_is_replaced_as_a_card_is() {
    let f = Folder::new();
    f.tour("real.tour", &[(0, 5, 1)]);
    f.write("sheet.csv", sheet(&spots(500, 7)));
    fs::set_permissions(f.path("real.tour"), fs::Permissions::from_mode(0o640)).unwrap();
    std::os::unix::fs::symlink("real.tour", f.path("link.tour")).unwrap();
    let press = ["press", "sheet.csv", "-o", "link.tour", "--force"];
    let lock = File::create(f.path("real.tour.lock")).unwrap();
    lock.lock().unwrap();
    f.run(&[&press[..], &["--wait", "0"]].concat()).exit(3).complains("another spotcard is changing link.tour right now");
    f.run(&["report", "real.tour", "0", "9", "0"]).exit(0).says("1 spot from");
    drop(lock);
    f.run(&press).exit(0);
    assert!(fs::symlink_metadata(f.path("link.tour")).unwrap().is_symlink());
    assert_eq!(fs::metadata(f.path("real.tour")).unwrap().permissions().mode() & 0o777, 0o640);
    f.run(&["info", "real.tour"]).exit(0).says("the tour is as real.tour.sha256 has it");
    let before = f.read("real.tour");
    fs::set_permissions(f.path("real.tour"), fs::Permissions::from_mode(0o444)).unwrap();
    f.run(&press).exit(3).complains("is write-protected");
    fs::set_permissions(f.path("real.tour"), fs::Permissions::from_mode(0o640)).unwrap();
    f.write("sheet.csv", sheet(&spots(512, 8)));
    // Half of the tour's length, in the shell's units of 512 bytes.
    let program = env!("CARGO_BIN_EXE_spotcard");
    let script = format!("trap '' XFSZ; ulimit -f {}; exec {program} press sheet.csv -o real.tour --force", 16 * BLOCK / 512 / 2);
    let out = process::Command::new("sh").args(["-c", &script]).current_dir(f.dir.path()).output().unwrap();
    let err = String::from_utf8_lossy(&out.stderr);
    assert!(out.status.code() == Some(3) && err.contains("real.tour can't be saved, and is as it was"), "{err}");
    assert_eq!((f.read("real.tour"), f.left_behind()), (before, vec![]));
}

/// What a tour can't do is refused with what it can do, whatever its length; lengths of 10 to 16 blocks are also those of cards.
#[test]
fn commands_for_cards_refuse_a_tour() {
    let f = Folder::new();
    f.write("sheet.csv", sheet(&[(0, 5, 1)]));
    f.card("a.card", 16, &[(0, 5, 1)]);
    for n in [0, 1, 300, 512] {
        f.tour("a.tour", &spots(n, 5));
        let before = f.read("a.tour");
        let rows: [&[&str]; 8] = [
            &["import", "sheet.csv", "a.tour"],
            &["import", "sheet.csv", "a.tour", "--replace"],
            &["export", "a.tour"],
            &["add", "a.tour", "1", "1", "1"],
            &["withdraw", "a.tour", "1", "1"],
            &["top", "a.tour", "0", "9", "1"],
            &["rebuild", "a.tour"],
            &["picture", "a.tour", "-o", "a.svg"],
        ];
        for args in rows {
            let ran = f.run(args).exit(1).complains("a.tour is a pressed tour, not a card. Nothing was done.");
            assert!(ran.complains("`spotcard report` and `spotcard info` read it").out.is_empty());
        }
        for args in [&["import", "a.tour", "a.card"][..], &["press", "a.tour", "-o", "b.tour"]] {
            f.run(args).exit(1).complains("a.tour is a pressed tour, not a sheet");
        }
        assert_eq!(f.read("a.tour"), before);
        fs::remove_file(f.path("a.tour")).unwrap();
    }
    f.run(&["press", "a.card", "-o", "b.tour"])
        .exit(1)
        .complains("a.card is a card, not a sheet")
        .complains("`spotcard export CARD` makes a sheet");
    assert!(!f.path("b.tour").exists() && !f.path("a.svg").exists());
    f.run(&["report", "no.tour", "0", "9", "0"]).exit(3).complains("there is no card no.tour");
}

/// A tour is never answered from where it isn't as pressing makes it; one that pressing makes of other spots is found by the digest.
#[test]
fn damage_is_noticed() {
    let f = Folder::new();
    f.tour("a.tour", &spots(300, 9));
    let tour = f.read("a.tour");
    let (mut random, mut damaged) = (Random(909), 0);
    for round in 0..120 {
        let mut bytes = tour.clone();
        // the catalogue's entries, the identities of a block's spots, the unused bytes behind them
        let at = match round % 3 {
            0 => 8 + random.below(36 * 9) as usize,
            1 => BLOCK * (1 + random.below(9) as usize) + 12 * random.below(44) as usize + random.below(8) as usize,
            _ => BLOCK * (1 + random.below(9) as usize) - 1 - random.below(1000) as usize,
        };
        bytes[at] ^= 1 << random.below(8);
        f.write("a.tour", &bytes);
        let info = f.run(&["info", "a.tour"]);
        if info.code == 0 {
            info.says("NOT as a.tour.sha256 has it").complains("warning: a.tour is not as spotcard left it");
        } else {
            info.exit(1).complains("a.tour is a damaged tour").complains("press it again from the sheet");
            f.run(&["report", "a.tour", "0", "5", "990"]).exit(1).complains("a.tour is a damaged tour");
            damaged += 1;
        }
    }
    assert!(damaged > 100, "{damaged} damaged");
    let mut bytes = tour.clone();
    // the track of a spot that no fused block repeats: the lowest rank of its block
    let lowest = (0..64).min_by_key(|i| bytes[BLOCK + 12 * i + 4..BLOCK + 12 * i + 8].to_vec()).unwrap();
    bytes[BLOCK + 12 * lowest + 11] ^= 64;
    f.write("a.tour", &bytes);
    f.run(&["report", "a.tour", "0", "9", "0"]).exit(0).complains("warning: a.tour is not as spotcard left it");
    f.run(&["info", "a.tour"]).exit(0).says("NOT as a.tour.sha256 has it");
    f.write("a.tour", &tour);
    fs::remove_file(f.path("a.tour.sha256")).unwrap();
    let ran = f.run(&["info", "a.tour"]).exit(0).says("none: there is no a.tour.sha256");
    assert_eq!(ran.err, "");
    for length in [0, 1, BLOCK - 1, tour.len() - 1, tour.len() + 1, 17 * BLOCK] {
        let mut bytes = tour.clone();
        bytes.resize(length, 0);
        f.write("a.tour", bytes);
        f.run(&["report", "a.tour", "0", "9", "0"]).exit(1);
    }
    f.write("a.tour", &tour[..BLOCK * 9]);
    f.run(&["report", "a.tour", "0", "9", "0"]).exit(1).complains("a.tour is a damaged tour");
}
