//! Sheets: every kind of bad row, and lines counted right in every kind of file.

mod common;
use common::Folder;
use proptest::prelude::*;

const LIMITS: &str = "is not a whole number from -1000000 to 1000000";
const RANGE: &str = "is not a whole number from -2147483648 to 2147483647";

/// Imports the sheet and gives what is complained of, line by line; the card is as it was.
#[track_caller]
fn refused(sheet: &[u8]) -> Vec<String> {
    let f = Folder::new();
    f.card("a.card", 9, &[(0, 5, 1)]);
    let files = || ["a.card", "a.card.sha256"].map(|name| f.read(name));
    let before = files();
    f.write("sheet.csv", sheet);
    let ran = f.run(&["import", "sheet.csv", "a.card"]).exit(1);
    assert_eq!(ran.out, "");
    assert_eq!(files(), before);
    f.run(&["import", "sheet.csv", "a.card", "--replace"]).exit(1);
    assert_eq!(files(), before);
    f.run(&["diff", "a.card", "sheet.csv"]).exit(1);
    ran.err.lines().map(String::from).collect()
}

#[test]
fn every_kind_of_bad_row_is_named_with_its_line() {
    let rows = [
        ("title,place,rank,track", None),
        ("fine,2400,7,51", None),
        ("a comma in a number,2400,\"12,5\",1", Some(format!("rank \"12,5\" {RANGE}"))),
        ("a point in a number,24.5,1,1", Some(format!("place \"24.5\" {LIMITS}"))),
        ("a unit,2400 cm,1,1", Some(format!("place \"2400 cm\" {LIMITS}"))),
        ("a word,2400,high,1", Some(format!("rank \"high\" {RANGE}"))),
        ("too far,1000001,1,1", Some(format!("place \"1000001\" {LIMITS}"))),
        ("too far the other way,-1000001,1,1", Some(format!("place \"-1000001\" {LIMITS}"))),
        ("the last places,1000000,1,1", None),
        ("the first places,-1000000,1,1", None),
        ("much too far,2147483648,1,1", Some(format!("place \"2147483648\" {LIMITS}"))),
        ("too large,1,2147483648,1", Some(format!("rank \"2147483648\" {RANGE}"))),
        ("too small,1,-2147483649,1", Some(format!("rank \"-2147483649\" {RANGE}"))),
        ("track below 0,1,1,-1", Some("track \"-1\" is not a whole number from 0 to 4294967295".into())),
        ("track too large,1,1,4294967296", Some("track \"4294967296\" is not a whole number from 0 to 4294967295".into())),
        ("no place,,1,1", Some("place is empty".into())),
        ("no rank,1,  ,1", Some("rank is empty".into())),
        ("no track,1,1,", Some("track is empty".into())),
        (",,,", None),
        ("again,2400,7,60", Some("place 2400 rank 7 stands already in line 2 (track 51, here 60)".into())),
        ("the very same,2400,7,51", Some("place 2400 rank 7 stands already in line 2 (track 51, here too)".into())),
        ("too few,1,1", Some("there are 3 columns where the first line has 4".into())),
        (
            "too many,1,1,1,1",
            Some("there are 5 columns where the first line has 4. A field with a comma in it has to stand in quotation marks".into()),
        ),
        (
            "semicolons;1;1;1",
            Some("there is 1 column where the first line has 4. There are semicolons between columns; they have to be commas".into()),
        ),
        ("a long minus,\u{2212}5,1,1", Some(format!("place \"\u{2212}5\" {LIMITS}: its minus sign has to be the plain -"))),
        ("\"also fine, 2 \"\"\",2401,+7,0051", None),
    ];
    for end in ["\n", "\r\n"] {
        let text: String = rows.iter().map(|(row, _)| format!("{row}{end}")).collect();
        let wanted = |(i, (_, what)): (usize, &(&str, Option<String>))| {
            let what = what.as_ref()?;
            Some(format!("sheet.csv line {}: {what}", i + 1))
        };
        let mut expected: Vec<String> = rows.iter().enumerate().filter_map(wanted).collect();
        let errors = expected.len();
        expected.push(format!("spotcard: {errors} errors in sheet.csv. Nothing was changed. Correct the sheet and try again."));
        assert_eq!(refused(text.as_bytes()), expected);
    }
}

#[test]
fn bytes_that_are_no_text_are_shown_or_ignored() {
    let all = refused(b"place,rank,track,title\n1,\xE4,3,ok\n2,2,2,\xE4\n");
    assert_eq!(all[0], format!("sheet.csv line 2: rank \"\u{E4}\" {RANGE}"));
    assert_eq!(all.len(), 2);
}

#[test]
fn twenty_errors_are_named_and_the_others_counted() {
    let rows: String = (0..57).map(|i| format!("x{i},1,1\n")).collect();
    let all = refused(format!("place,rank,track\n{rows}").as_bytes());
    assert_eq!(all.len(), 22);
    assert!(all[19].starts_with("sheet.csv line 21: "));
    assert_eq!(all[20], "... and 37 more");
    assert!(all[21].contains("57 errors in sheet.csv"));
}

#[test]
fn sheets_that_are_no_sheets_say_what_they_are() {
    let rows: [(&[u8], &str); 9] = [
        (b"place;rank;Spur\r\n1;2;3\r\n", "sheet.csv line 1: no column is named track. The first line has to name the columns place, rank and track; it has: place, rank, Spur. If they have other names: --columns"),
        (b"sep=;;\nplace;rank;track\n1;2;3\n", "sheet.csv line 1: behind sep= stands the one sign that parts the columns, as in sep=;"),
        (
            b"1,2,3\n",
            "sheet.csv line 1: no column is named place. The first line has to name the columns place, rank and track; it has: 1, 2, 3",
        ),
        (b"place,track\n1,2\n", "no column is named rank"),
        (b"place,rank,track,Place\n1,2,3,4\n", "two columns are named place"),
        (b"PK\x03\x04", "is a spreadsheet file, not CSV"),
        (b"\xFF\xFEp\0l", "is written in UTF-16 and has half a character at its end"),
        (b"", "sheet.csv is empty"),
        (b"place,rank,track,title\n1,2,3,\"a\n4,5,6,b\n", "sheet.csv line 2: a quotation mark (\") is opened here and never closed"),
    ];
    for (text, words) in rows {
        let all = refused(text);
        assert!(all[0].contains(words), "{all:?}");
    }
}

#[test]
fn a_sheet_with_a_byte_order_mark_and_no_last_line_end() {
    let f = Folder::new();
    f.run(&["new", "a.card", "--blocks", "9"]).exit(0);
    f.write("sheet.csv", "\u{FEFF}place,rank,track\r\n1,2,3\r\n4,5,6");
    f.run(&["import", "sheet.csv", "a.card"]).exit(0).says("2 rows of sheet.csv: 2 new");
    f.write("none.csv", "place,rank,track\n");
    f.run(&["import", "none.csv", "a.card"]).exit(0).says("0 rows of none.csv");
    f.run(&["import", "none.csv", "a.card", "--replace", "--yes"]).exit(0).says("2 withdrawn; it holds 0");
}

/// The same two spots, from the sheets that spreadsheets write: what is said, and what is on the card afterwards.
#[track_caller]
fn taken(sheet: &[u8], more: &[&str]) {
    let f = Folder::new();
    f.run(&["new", "a.card", "--blocks", "9"]).exit(0);
    f.write("sheet.csv", sheet);
    let ran = f.run(&[&["import", "sheet.csv", "a.card"], more].concat()).exit(0);
    assert_eq!(ran.out, "a.card: 2 rows of sheet.csv: 2 new, 0 on the card already; it holds 2 of 128 spots.\n");
    assert_eq!(f.run(&["export", "a.card"]).out, "place,rank,track\n-1000,7,51\n240000,8,60\n");
    f.run(&[&["diff", "a.card", "sheet.csv"], more].concat()).exit(0);
}

#[test]
fn columns_are_parted_by_what_the_header_shows() {
    taken(b"place;title;rank;track\r\n-1000;\"Vase; blue, old\";7;51\r\n240000;Mask;8;60\r\n", &[]);
    taken(b"place\ttitle\trank\ttrack\r\n-1000\tVase, blue\t7\t51\r\n240000\tMask; old\t8\t60\r\n", &[]);
    taken(b"\"place\";\"rank\";\"track\"\n-1000;7;51\n240000;8;60\n", &[]);
    taken(b"sep=;\r\nplace;rank;track\r\n-1000;7;51\r\n240000;8;60\r\n", &[]);
    taken(b"\"sep=|\"\nplace|rank|track\n-1000|7|51\n240000|8|60\n", &[]);
    taken(b"SEP=,\nplace,rank,track\n-1000,7,51\n240000,8,60\n", &[]);
    // a comma in a title does not part the columns of a sheet with semicolons
    taken(b"title, room;place;rank;track\na,b;-1000;7;51\nc,d;240000;8;60\n", &[]);
    // empty rows above the header are nothing
    taken(b"\r\n;;\r\nplace;rank;track\r\n-1000;7;51\r\n;;\r\n240000;8;60\r\n", &[]);
}

#[test]
fn wide_text_with_its_mark() {
    let text = "\u{FEFF}Titel\tplace\trank\ttrack\r\nK\u{E4}se\t-1000\t7\t51\r\n\u{1F3FA}\t240000\t8\t60\r\n";
    taken(&text.encode_utf16().flat_map(u16::to_le_bytes).collect::<Vec<_>>(), &[]);
    taken(&text.encode_utf16().flat_map(u16::to_be_bytes).collect::<Vec<_>>(), &[]);
    taken(b"Titel;place;rank;track\r\nK\xE4se;-1000;7;51\r\n\x84x\x93;240000;8;60\r\n", &[]);
}

#[test]
fn title_rows_are_named_as_such() {
    let all = refused("Ausstellung 2026;;\n\nStand: Mai;;\nplace;rank;track\n1;2;3\n".as_bytes());
    let row = |line: u32, text: &str| {
        format!("sheet.csv line {line}: \"{text}\" is a title row; the names of the columns stand in line 4. Delete what stands above them")
    };
    assert_eq!(all[..2], [row(1, "Ausstellung 2026"), row(3, "Stand: Mai")]);
    assert_eq!(all[2], "spotcard: 2 errors in sheet.csv. Nothing was changed. Correct the sheet and try again.");
}

#[test]
fn columns_by_other_names() {
    let sheet = "Ort;Titel;Rang;Spur;track\n-1000;Vase;7;51;x\n240000;Mask;8;60;y\n".as_bytes();
    taken(sheet, &["--columns", "place=Ort,rank=Rang,track=Spur"]);
    taken(sheet, &["--columns", "track=spur , place=ORT,rank=Rang"]);
    let all = refused(sheet);
    assert_eq!(
        all[0],
        "sheet.csv line 1: no column is named place. The first line has to name the columns place, rank and track; it has: Ort, Titel, Rang, Spur, track. \
         If they have other names: --columns place=Ort,rank=Rang,track=Spur"
    );
    let f = Folder::new();
    f.card("a.card", 9, &[(0, 5, 1)]);
    f.write("sheet.csv", sheet);
    let import = |columns: &str| f.run(&["import", "sheet.csv", "a.card", "--columns", columns]);
    import("place=Ort,rank=Rang").exit(1).complains("line 2: track \"x\" is not a whole number");
    import("place=Ort,rank=Rang,track=Platz")
        .exit(1)
        .complains("no column is named Platz. The first line has to name the columns Ort, Rang and Platz; it has: Ort");
    for (columns, words) in
        [("Ort", "not of the form place=Ort"), ("ort=place", "none of place, rank, track, title, room"), ("place=", "one name")]
    {
        import(columns).exit(2).complains(words);
    }
    for args in [&["press", "sheet.csv", "-o", "a.tour"][..], &["send", "sheet.csv", "sheet.csv", "-o", "m.changes"]] {
        f.run(args).exit(1);
        f.run(&[args, &["--columns", "place=Ort,rank=Rang,track=Spur"]].concat()).exit(0);
    }
}

#[test]
fn no_break_spaces_are_trimmed_or_named() {
    taken("\u{A0}place\u{A0};rank;track\n-1000\u{A0};\u{202F}7;51\n240000;8\u{2007};60\u{FEFF}\n".as_bytes(), &[]);
    let all = refused("place,rank,track\n1\u{A0}000,7,51\n".as_bytes());
    assert_eq!(all[0], format!("sheet.csv line 2: place \"1\u{A0}000\" {LIMITS}: there is a no-break space in it"));
}

#[test]
fn numbers_with_points_and_commas() {
    taken(b"place;rank;track\n-1.000;7;51\n240.000,00;8,0;60\n", &[]);
    taken(b"place;rank;track\n-1000,00;7,00;51\n240.000;8;60\n", &[]);
    taken(b"place,rank,track\n\"-1,000.00\",7.0,51\n\"240,000\",8,60\n", &[]);
    taken(b"place,rank,track\n\"-1000,00\",7,51\n240.000,8,60\n", &[]);
    let all = refused(b"place,rank,track\n1.000,7,51\n\"2,400\",7,51\n12.5,7,51\n");
    // 12.5 shows what the point is
    assert_eq!(all[0], format!("sheet.csv line 4: place \"12.5\" {LIMITS}"));
    let all = refused(b"place,rank,track\n1.000,7,51\n\"2,400\",7,51\n");
    assert_eq!(all[0], "sheet.csv line 2: place \"1.000\" can be 1000 or 1: write whole numbers without the point");
    assert_eq!(all[1], "sheet.csv line 3: place \"2,400\" can be 2400 or 2 and a fraction: write whole numbers without the comma");
    assert_eq!(all[2], "spotcard: 2 errors in sheet.csv. Nothing was changed. Correct the sheet and try again.");
}

#[test]
fn a_sheet_from_standard_input_or_a_pipe() {
    let f = Folder::new();
    f.card("a.card", 9, &[(0, 5, 1)]);
    let program = env!("CARGO_BIN_EXE_spotcard");
    let sh = |script: &str| {
        let script = script.replace("spotcard", program);
        let out = std::process::Command::new("bash").args(["-c", &script]).current_dir(f.dir.path()).output().unwrap();
        (out.status.code().unwrap(), String::from_utf8(out.stdout).unwrap(), String::from_utf8(out.stderr).unwrap())
    };
    let said = "a.card: 2 rows of standard input: 1 new, 1 on the card already; it holds 2 of 128 spots.\n";
    assert_eq!(sh("printf 'place;rank;track\n0;5;1\n7;7;7\n' | spotcard import - a.card"), (0, said.into(), String::new()));
    let (code, _, err) = sh("printf 'place;rank;track\n0;x;1\n' | spotcard import - a.card");
    assert!(code == 1 && err.starts_with("standard input line 2: rank \"x\" is not"), "{err}");
    assert_eq!(sh("spotcard import <(printf 'place,rank,track\n8,8,8\n') a.card").0, 0);
    assert_eq!(sh("spotcard export a.card | spotcard diff a.card -").0, 0);
    // no end, and no beginning
    let before = f.read("a.card");
    for endless in ["import /dev/zero a.card", "import <(yes 1,2,3) a.card", "import - a.card < /dev/zero", "apply a.card /dev/zero"] {
        let (code, _, err) = sh(&format!("spotcard {endless}"));
        assert!(code == 1 && err.contains("has more than 67,108,864 bytes, and no more are read"), "{endless}: {err}");
    }
    assert_eq!(sh("mkfifo pipe").0, 0);
    for command in ["import pipe a.card", "apply a.card pipe", "diff a.card pipe", "press pipe -o x.tour"] {
        let (code, _, err) = sh(&format!("timeout 20 spotcard {command}"));
        assert!(
            code == 3 && err.contains("pipe is a pipe, and nothing came out of it for 3 seconds. Nothing was done."),
            "{command}: {err}"
        );
    }
    let (code, _, err) = sh("timeout 20 spotcard export a.card -o pipe");
    assert!(code == 3 && err.contains("pipe is a pipe, and nobody reads from it."), "{err}");
    assert_eq!(f.read("a.card"), before);
}

#[test]
fn titles_stand_beside_the_numbers() {
    let f = Folder::new();
    f.card("a.card", 9, &[(0, 5, 1), (240, 7, 2), (300, 9, 4)]);
    f.write("sheet.csv", "Raum;Titel;place;rank;track\nHalle;\"Vase, \"\"blau\"\"\";0;5;1\n;Maske;240;7;2\nTurm;Uhr;300;9;5\n");
    let with = ["--sheet", "sheet.csv", "--columns", "title=Titel,room=Raum"];
    let table = "\
3 spots from 0 to 300 cm with rank 0 or more
      place        rank      track  title
          0           5          1  Vase, \"blau\" (Halle)
        240           7          2  Maske
        300           9          4
1 spot stands not in sheet.csv, or with another track there
";
    let ran = f.run(&[&["report", "a.card", "0", "300", "0"], &with[..]].concat()).exit(0);
    assert_eq!((ran.out.as_str(), ran.err.as_str()), (table, ""));
    let ran = f.run(&[&["top", "a.card", "0", "240", "9", "--csv"], &with[..]].concat()).exit(0);
    assert_eq!(ran.out, "place,rank,track,title,room\n240,7,2,Maske,\n0,5,1,\"Vase, \"\"blau\"\"\",Halle\n");
    let ran = f.run(&[&["report", "a.card", "0", "0", "0", "240", "240", "0", "--csv"], &with[..]].concat()).exit(0);
    assert_eq!(ran.out, "range,place,rank,track,title,room\n1,0,5,1,\"Vase, \"\"blau\"\"\",Halle\n2,240,7,2,Maske,\n");
    f.run(&["press", "sheet.csv", "-o", "a.tour"]).exit(0);
    f.run(&[&["report", "a.tour", "0", "300", "9"], &with[..]].concat()).exit(0).says("300           9          5  Uhr (Turm)\n");
    f.run(&[&["picture", "a.card", "-o", "a.svg"], &with[..]].concat()).exit(0);
    let svg = f.text("a.svg");
    assert!(svg.contains("<title>Vase, &quot;blau&quot; (Halle): place 0 rank 5 track 1, settled in block 1</title>"), "{svg}");
    assert!(svg.contains("<title>place 300 rank 9 track 4, settled in block 1</title>"));
    f.run(&["report", "a.card", "0", "9", "0", "--sheet", "sheet.csv"]).exit(1).complains("sheet.csv has no column named title or room.");
    f.run(&["report", "a.card", "0", "9", "0", "--sheet", "no.csv"]).exit(3).complains("no.csv can't be read");
}

/// A title as spreadsheets write it, in quotation marks where it needs them.
fn quoted(title: &str, always: bool) -> String {
    if always || title.contains([',', '"', '\n', '\r']) {
        format!("\"{}\"", title.replace('"', "\"\""))
    } else {
        title.into()
    }
}

proptest! {
    #![proptest_config(ProptestConfig { cases: 60, failure_persistence: None, ..ProptestConfig::default() })]

    /// Rows with titles of any text, blank lines, either line end: what is exported is what was in the sheet, and a wrong row is named by its line.
    #[test]
    fn rows_come_back_and_lines_are_right(
        rows in prop::collection::btree_map((-1_000_000..=1_000_000, any::<i32>()), (any::<u32>(), "[a-z,\"\n;]{0,6}", any::<bool>(), 0usize..2), 1..30),
        is_crlf in any::<bool>(),
        bad in any::<prop::sample::Index>(),
    ) {
        let end = if is_crlf { "\r\n" } else { "\n" };
        let text = |wrong: Option<usize>| {
            let mut out = format!("title,track,rank,place{end}");
            let mut line = 0;
            for (i, ((place, rank), (track, title, always, blank))) in rows.iter().enumerate() {
                out.push_str(&end.repeat(*blank));
                if wrong == Some(i) {
                    line = out.matches('\n').count() + 1;
                }
                let rank = if wrong == Some(i) { "seven".into() } else { rank.to_string() };
                let title = quoted(&title.replace('\n', end), *always);
                out.push_str(&format!("{title},\"{track}\",{rank},{place}{end}"));
            }
            (out, line)
        };
        let f = Folder::new();
        f.run(&["new", "a.card", "--blocks", "9"]).exit(0);
        let wrong = bad.index(rows.len());
        let (sheet, line) = text(Some(wrong));
        f.write("sheet.csv", sheet);
        let ran = f.run(&["import", "sheet.csv", "a.card"]).exit(1);
        let said = format!("sheet.csv line {line}: rank \"seven\" {RANGE}\nspotcard: 1 error");
        prop_assert!(ran.err.starts_with(&said), "{}", ran.err);
        f.write("sheet.csv", text(None).0);
        f.run(&["import", "sheet.csv", "a.card"]).exit(0);
        let back: String = rows.iter().map(|((p, r), (t, ..))| format!("{p},{r},{t}\n")).collect();
        prop_assert_eq!(f.run(&["export", "a.card"]).out, format!("place,rank,track\n{back}"));
    }
}
