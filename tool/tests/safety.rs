//! Crashes, two writers at once, a full disk: the card is the old one or the new one, and nothing is lost.

mod common;
use common::{sheet, spots, Folder, Random, BLOCK};
use std::fs::{self, File};
use std::process::{Child, Command, Stdio};
use std::time::{Duration, Instant};

fn start(f: &Folder, args: &[&str]) -> Child {
    Command::new(env!("CARGO_BIN_EXE_spotcard"))
        .args(args)
        .current_dir(f.dir.path())
        .stdout(Stdio::null())
        .stderr(Stdio::piped())
        .spawn()
        .unwrap()
}

fn restore(f: &Folder, names: &[&str], files: &[Vec<u8>]) {
    for (name, bytes) in names.iter().zip(files) {
        f.write(name, bytes);
    }
}

/// Kills the command at random moments, each time on the same card: how often the old and the new card were there afterwards, and how
/// often the kill came while files were being replaced.
fn kill_at_random(f: &Folder, args: &[&str], rounds: usize, seed: u64) -> (usize, usize, usize) {
    let files = ["a.card", "a.card.sha256"];
    let old = files.map(|name| f.read(name));
    let mut long = u64::MAX;
    for _ in 0..3 {
        restore(f, &files, &old);
        let begun = Instant::now();
        f.run(args).exit(0);
        long = long.min(begun.elapsed().as_micros() as u64);
    }
    let new = f.read("a.card");
    assert!(old[0] != new);
    let mut random = Random(seed);
    let (mut olds, mut news, mut midst) = (0, 0, 0);
    for _ in 0..rounds {
        restore(f, &files, &old);
        let mut child = start(f, args);
        std::thread::sleep(Duration::from_micros(random.below(long + long / 3)));
        child.kill().unwrap();
        child.wait().unwrap();
        let now = f.read("a.card");
        assert!(now == old[0] || now == new, "neither the old nor the new card");
        if now == new {
            news += 1
        } else {
            olds += 1
        }
        let left = f.left_behind();
        if !left.is_empty() || f.text("a.card.sha256").lines().count() > 1 {
            midst += 1;
        }
        left.iter().for_each(|name| fs::remove_file(f.path(name)).unwrap());
        f.run(&["check", "a.card"]).exit(0).says("those that spotcard wrote");
    }
    restore(f, &files, &old);
    (olds, news, midst)
}

#[test]
fn killed_at_any_moment_the_card_is_the_old_or_the_new_one() {
    let f = Folder::new();
    f.card("a.card", 256, &spots(2000, 5));
    f.write("new.csv", sheet(&spots(1000, 6)));
    let (olds, news, midst) = kill_at_random(&f, &["import", "new.csv", "a.card", "--replace", "--yes"], 100, 11);
    f.run(&["add", "a.card", "5", "-1", "5"]).exit(0);
    let (olds2, news2, midst2) = kill_at_random(&f, &["rebuild", "a.card"], 100, 12);
    f.write("other.csv", sheet(&spots(1500, 7)));
    f.run(&["send", "new.csv", "other.csv", "-o", "m.changes"]).exit(0);
    let (olds3, news3, midst3) = kill_at_random(&f, &["apply", "a.card", "m.changes"], 100, 13);
    println!("import: old {olds}, new {news}; rebuild: old {olds2}, new {news2}; apply: old {olds3}, new {news3}; while replacing: {midst}, {midst2}, {midst3}");
    assert!(olds > 0 && olds2 > 0 && olds3 > 0);
    f.run(&["check", "a.card"]).exit(0);
}

#[test]
fn two_writers_at_once_lose_nothing() {
    let f = Folder::new();
    f.run(&["new", "a.card", "--blocks", "64"]).exit(0);
    f.write("many.csv", sheet(&spots(500, 21)));
    let mut all = vec![start(&f, &["import", "many.csv", "a.card"])];
    for i in 0..12 {
        let place = (200_000 + i).to_string();
        all.push(start(&f, &["add", "a.card", &place, "1", "1"]));
    }
    for child in all {
        let out = child.wait_with_output().unwrap();
        assert!(out.status.success(), "{}", String::from_utf8_lossy(&out.stderr));
    }
    f.run(&["info", "a.card"]).exit(0).says("512 of 1,008");
    f.run(&["check", "a.card"]).exit(0);
}

#[test]
fn a_card_that_is_being_changed_can_be_read_but_not_changed() {
    let f = Folder::new();
    f.card("a.card", 9, &[(0, 5, 1)]);
    let before = f.read("a.card");
    let lock = File::create(f.path("a.card.lock")).unwrap();
    lock.lock().unwrap();
    f.run(&["add", "a.card", "1", "1", "1", "--wait", "0"])
        .exit(3)
        .complains("another spotcard is changing a.card right now. Nothing was done");
    f.run(&["new", "a.card", "--force", "--wait", "0"]).exit(3);
    f.run(&["report", "a.card", "0", "9", "0"]).exit(0);
    f.run(&["check", "a.card"]).exit(0);
    assert_eq!(f.read("a.card"), before);
    let mut child = start(&f, &["add", "a.card", "1", "1", "1"]);
    std::thread::sleep(Duration::from_millis(300));
    assert!(child.try_wait().unwrap().is_none(), "did not wait");
    drop(lock);
    assert!(child.wait().unwrap().success());
    f.run(&["info", "a.card"]).exit(0).says("2 of 128");
}

#[test]
fn readers_meet_whole_cards_while_writers_write() {
    let f = Folder::new();
    f.card("a.card", 64, &spots(300, 31));
    let mut writer = Command::new("sh");
    let program = env!("CARGO_BIN_EXE_spotcard");
    let script = format!("for i in 1 2 3 4 5 6 7 8 9 10 11 12 13 14 15; do {program} add a.card 1 1 $i >/dev/null || exit 1; done");
    let mut writer = writer.args(["-c", &script]).current_dir(f.dir.path()).spawn().unwrap();
    while writer.try_wait().unwrap().is_none() {
        let ran = f.run(&["check", "a.card"]).exit(0).says("those that spotcard wrote");
        assert_eq!(ran.err, "");
    }
    assert!(writer.wait().unwrap().success());
}

#[test]
fn a_file_that_may_not_grow_leaves_the_card_as_it_was() {
    let f = Folder::new();
    f.waiting_card("a.card", 256, &spots(300, 5));
    let before = ["a.card", "a.card.sha256"].map(|name| f.read(name));
    // Half of the card's length, in the shell's units of 512 bytes.
    let limit = 256 * BLOCK / 512 / 2;
    let program = env!("CARGO_BIN_EXE_spotcard");
    let script = format!("trap '' XFSZ; ulimit -f {limit}; exec {program} rebuild a.card");
    let out = Command::new("sh").args(["-c", &script]).current_dir(f.dir.path()).output().unwrap();
    let err = String::from_utf8_lossy(&out.stderr);
    assert_eq!(out.status.code(), Some(3), "{err}");
    assert!(err.contains("a.card can't be saved, and is as it was: a file may not become that large here"), "{err}");
    assert_eq!(["a.card", "a.card.sha256"].map(|name| f.read(name)), before);
    assert_eq!(f.left_behind(), [] as [&str; 0]);
}

/// A small disk of its own, of every size from too small for a second copy of the card to enough.
const FULL_DISK: &str = r#"
set -e
mkdir disk
for pages in $(seq 34 1 70); do
    mount -t tmpfs -o size=$((pages * 4096)) disk disk
    cp a.card a.card.sha256 disk/
    code=0
    "$1" add disk/a.card 5 5 5 2>said >/dev/null || code=$?
    "$1" check disk/a.card >/dev/null
    if cmp -s a.card disk/a.card; then
        grep -q 'disk is full' said
        [ "$code" = 3 ]
        echo old
    else
        [ "$code" = 0 ]
        echo new
    fi
    [ -z "$(find disk -name '*.spotcard-tmp')" ]
    umount disk
done
"#;

#[test]
fn a_full_disk_leaves_the_card_as_it_was() {
    let f = Folder::new();
    f.card("a.card", 64, &spots(300, 5));
    let can_mount = Command::new("unshare").args(["-rm", "true"]).status();
    if !can_mount.is_ok_and(|s| s.success()) {
        println!("left out: no disk can be mounted here");
        return;
    }
    fs::write(f.path("full.sh"), FULL_DISK).unwrap();
    let out =
        Command::new("unshare").args(["-rm", "sh", "full.sh", env!("CARGO_BIN_EXE_spotcard")]).current_dir(f.dir.path()).output().unwrap();
    let (said, err) = (String::from_utf8_lossy(&out.stdout), String::from_utf8_lossy(&out.stderr));
    assert!(out.status.success(), "{said}{err}");
    assert!(said.contains("old") && said.contains("new"), "{said}");
}

#[test]
fn only_what_this_card_left_behind_is_cleared_away() {
    let f = Folder::new();
    f.card("a.card", 9, &[(0, 5, 1)]);
    let names = [".a.card.Xy12ab.spotcard-tmp", ".a.card.b.Xy12ab.spotcard-tmp", ".other.card.Xy12ab.spotcard-tmp", ".a.card.Xy12ab.tmp"];
    names.iter().for_each(|name| f.write(name, "x"));
    f.run(&["add", "a.card", "1", "1", "1"]).exit(0);
    let left: Vec<bool> = names.iter().map(|name| f.path(name).exists()).collect();
    assert_eq!(left, [false, true, true, true]);
}
