//! The build script: which archive it takes, and what it says where there is none.

#[allow(dead_code)]
#[path = "../build.rs"]
mod build;
use build::find;
use std::fs;
use std::path::{Path, PathBuf};

/// A folder of its own, gone at the end.
struct Folder(PathBuf);

impl Folder {
    fn new(name: &str) -> Folder {
        let path = std::env::temp_dir().join(format!("spot_table-{name}-{}", std::process::id()));
        fs::create_dir_all(&path).unwrap();
        Folder(path)
    }

    /// An archive whose one file is ELF for this machine.
    fn archive(&self, path: &str, machine: u8) -> &Path {
        let path = self.0.join(path);
        fs::create_dir_all(path.parent().unwrap()).unwrap();
        let mut bytes = b"!<arch>\nx.o/            0           0     0     644     64        `\n\x7fELF\x02\x01".to_vec();
        bytes.resize(bytes.len() + 12, 0);
        fs::write(path, [bytes, vec![machine, 0, 1, 0]].concat()).unwrap();
        &self.0
    }
}

impl Drop for Folder {
    fn drop(&mut self) {
        let _ = fs::remove_dir_all(&self.0);
    }
}

fn refused(target: &str, installed: Option<&Path>, root: &Path) -> String {
    let why = find(target, installed, root).err().unwrap();
    assert!(!why.contains('\n'), "{why}");
    why
}

#[test]
fn the_archive_of_each_target() {
    let folder = Folder::new("each");
    for (target, path, machine) in [
        ("x86_64-unknown-linux-gnu", "target/staticlib/libcabi.a", 62),
        ("x86_64-unknown-linux-musl", "target/staticlib/libcabi.a", 62),
        ("aarch64-unknown-linux-gnu", "target/aarch64-linux-gnu/libspot_table.a", 183),
        ("armv7-unknown-linux-gnueabihf", "target/armv7-linux-gnueabihf/libspot_table.a", 40),
        ("thumbv7em-none-eabi", "target/thumbv7em-none-eabi/libspot_table.a", 40),
        ("riscv64gc-unknown-linux-gnu", "target/riscv64-linux-gnu/libspot_table.a", 243),
        ("wasm32-unknown-unknown", "target/wasm32/libspot_table.a", 0),
    ] {
        let _ = fs::remove_file(folder.0.join(path));
        let missing = refused(target, None, &folder.0);
        assert!(missing.contains(path) && missing.contains("run `make") && missing.contains("SPOT_TABLE_LIB_DIR"), "{missing}");
        let root = folder.archive(path, machine);
        assert_eq!(find(target, None, root).ok().unwrap().path(), root.join(path));
    }
}

#[test]
fn no_archive() {
    let folder = Folder::new("none");
    for target in ["x86_64-pc-windows-msvc", "x86_64-apple-darwin", "riscv32imc-unknown-none-elf", "thumbv7em-none-eabihf", ""] {
        let why = refused(target, None, &folder.0);
        assert!(why.starts_with(&format!("there is no proved library for {target}, only for x86_64 Linux, aarch64")), "{why}");
    }
}

#[test]
fn an_installed_one() {
    let folder = Folder::new("installed");
    let missing = refused("aarch64-apple-darwin", Some(&folder.0), Path::new(""));
    assert!(
        missing.contains("libspot_table.a can't be read") && missing.ends_with("SPOT_TABLE_LIB_DIR has to name its folder"),
        "{missing}"
    );
    let root = folder.archive("libspot_table.a", 183);
    assert!(find("aarch64-unknown-none", Some(root), Path::new("")).is_ok());
    let other = refused("x86_64-unknown-linux-gnu", Some(root), Path::new(""));
    assert!(other.contains("libspot_table.a is for aarch64, and the target is x86_64-unknown-linux-gnu"), "{other}");
}
