//! The real program on real files, in a folder of its own.
#![allow(dead_code)]

use assert_cmd::Command;
use std::fs;
use std::path::PathBuf;
use tempfile::TempDir;

pub const BLOCK: usize = 2048;

pub struct Ran {
    pub code: i32,
    pub out: String,
    pub err: String,
}

impl Ran {
    /// The exit code was this one; the output, for a next look.
    #[track_caller]
    pub fn exit(self, code: i32) -> Ran {
        assert_eq!(self.code, code, "out: {}\nerr: {}", self.out, self.err);
        self
    }

    #[track_caller]
    pub fn says(self, words: &str) -> Ran {
        assert!(self.out.contains(words), "not said: {words}\nout: {}", self.out);
        self
    }

    #[track_caller]
    pub fn complains(self, words: &str) -> Ran {
        assert!(self.err.contains(words), "not said: {words}\nerr: {}", self.err);
        self
    }
}

pub struct Folder {
    pub dir: TempDir,
}

impl Folder {
    pub fn new() -> Folder {
        Folder { dir: TempDir::new().unwrap() }
    }

    pub fn path(&self, name: &str) -> PathBuf {
        self.dir.path().join(name)
    }

    pub fn write(&self, name: &str, bytes: impl AsRef<[u8]>) {
        fs::write(self.path(name), bytes).unwrap();
    }

    pub fn read(&self, name: &str) -> Vec<u8> {
        fs::read(self.path(name)).unwrap()
    }

    pub fn text(&self, name: &str) -> String {
        String::from_utf8(self.read(name)).unwrap()
    }

    pub fn run(&self, args: &[&str]) -> Ran {
        let mut command = Command::cargo_bin("spotcard").unwrap();
        let output = command.current_dir(self.dir.path()).args(args).output().unwrap();
        Ran {
            code: output.status.code().expect("no exit code"),
            out: String::from_utf8(output.stdout).unwrap(),
            err: String::from_utf8(output.stderr).unwrap(),
        }
    }

    /// A card of so many blocks with these spots.
    pub fn card(&self, name: &str, blocks: usize, spots: &[(i32, i32, u32)]) {
        self.write("made.csv", sheet(spots));
        self.run(&["new", name, "--blocks", &blocks.to_string()]).exit(0);
        self.run(&["import", "made.csv", name]).exit(0);
    }

    /// The same, with the last eight of the spots added one by one: these wait in the card, where the others are laid out.
    pub fn waiting_card(&self, name: &str, blocks: usize, spots: &[(i32, i32, u32)]) {
        let (first, last) = spots.split_at(spots.len() - 8);
        self.card(name, blocks, first);
        for (place, rank, track) in last {
            self.run(&["add", name, &place.to_string(), &rank.to_string(), &track.to_string()]).exit(0);
        }
    }

    pub fn left_behind(&self) -> Vec<String> {
        let names = fs::read_dir(self.dir.path()).unwrap();
        let names = names.map(|e| e.unwrap().file_name().into_string().unwrap());
        names.filter(|n| n.ends_with(".spotcard-tmp")).collect()
    }
}

pub fn sheet(spots: &[(i32, i32, u32)]) -> String {
    let rows = spots.iter().map(|(p, r, t)| format!("{p},{r},{t}\n"));
    format!("place,rank,track\n{}", rows.collect::<String>())
}

/// Numbers that look random and are the same each time.
pub struct Random(pub u64);

impl Random {
    pub fn below(&mut self, n: u64) -> u64 {
        self.0 ^= self.0 << 13;
        self.0 ^= self.0 >> 7;
        self.0 ^= self.0 << 17;
        self.0 % n
    }
}

/// So many spots, no two of the same place and rank.
pub fn spots(n: usize, seed: u64) -> Vec<(i32, i32, u32)> {
    let mut random = Random(seed);
    let mut seen = std::collections::BTreeSet::new();
    while seen.len() < n {
        seen.insert((random.below(100_000) as i32, random.below(1000) as i32));
    }
    let mut out: Vec<_> = seen.into_iter().map(|(p, r)| (p, r, random.below(9999) as u32)).collect();
    out.sort_by_key(|s| s.2);
    out
}
