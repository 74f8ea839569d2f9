//! Links the proved library for the target: an installed `libspot_table.a` where SPOT_TABLE_LIB_DIR names its folder, else the archive that `make` built in this repository. Without one it
//! says what to do. Whoever links the library in another way overrides this script, as Cargo has it for the key `links`.
use std::path::{Path, PathBuf};

/// The targets for which the repository builds an archive: as Rust names them, and as `make TARGET=..` does.
const TARGETS: [(&str, &str); 6] = [
    ("aarch64-unknown-linux-gnu", "aarch64-linux-gnu"),
    ("armv7-unknown-linux-gnueabihf", "armv7-linux-gnueabihf"),
    ("riscv64gc-unknown-linux-gnu", "riscv64-linux-gnu"),
    ("s390x-unknown-linux-gnu", "s390x-linux-gnu"),
    ("thumbv7em-none-eabi", "thumbv7em-none-eabi"),
    ("wasm32-unknown-unknown", "wasm32"),
];

fn main() {
    println!("cargo::rerun-if-env-changed=SPOT_TABLE_LIB_DIR");
    let root = PathBuf::from(std::env::var_os("CARGO_MANIFEST_DIR").unwrap_or_default()).join("..");
    let installed = std::env::var_os("SPOT_TABLE_LIB_DIR").map(PathBuf::from);
    match find(&std::env::var("TARGET").unwrap_or_default(), installed.as_deref(), &root) {
        Ok(archive) => {
            println!("cargo::rerun-if-changed={}", archive.path().display());
            println!("cargo::rustc-link-search=native={}", archive.folder.display());
            println!("cargo::rustc-link-lib=static={}", archive.name);
            println!("cargo::metadata=include={}", root.join("include").display());
        }
        Err(why) => println!("cargo::error={why}"),
    }
}

pub struct Archive {
    folder: PathBuf,
    name: &'static str,
}

impl Archive {
    pub fn path(&self) -> PathBuf {
        self.folder.join(format!("lib{}.a", self.name))
    }
}

/// The archive for a target, or, in one line, why there is none and what to do.
pub fn find(target: &str, installed: Option<&Path>, root: &Path) -> Result<Archive, String> {
    let (archive, otherwise) = match installed {
        Some(folder) => {
            (Archive { folder: folder.to_path_buf(), name: "spot_table" }, "SPOT_TABLE_LIB_DIR has to name its folder".to_string())
        }
        None => built(target, root)?,
    };
    let path = archive.path();
    let bytes = std::fs::read(&path).map_err(|why| format!("the proved library {} can't be read ({why}): {otherwise}", path.display()))?;
    match machine(&bytes) {
        Some(other) if !target.starts_with(other) => {
            Err(format!("{} is for {other}, and the target is {target}: {otherwise}", path.display()))
        }
        _ => Ok(archive),
    }
}

/// Where the repository has the archive for a target, and what to do where it isn't there.
fn built(target: &str, root: &Path) -> Result<(Archive, String), String> {
    let or = "(this needs the Rattle kit), or set SPOT_TABLE_LIB_DIR to the folder of an installed libspot_table.a";
    if target.starts_with("x86_64-") && target.contains("-linux-") {
        let archive = Archive { folder: root.join("target/staticlib"), name: "cabi" };
        return Ok((archive, format!("run `make` in the root of the repository {or}")));
    }
    let Some((_, name)) = TARGETS.iter().find(|(rust, _)| *rust == target) else {
        let others = TARGETS.map(|(rust, _)| rust).join(", ");
        return Err(format!("there is no proved library for {target}, only for x86_64 Linux, {others}. With one of your own, set SPOT_TABLE_LIB_DIR to its folder"));
    };
    let archive = Archive { folder: root.join("target").join(name), name: "spot_table" };
    Ok((archive, format!("run `make TARGET={name}` in the root of the repository {or}")))
}

/// The processor of an archive, by the head of its first ELF file, as Rust's names of targets begin; None where that isn't known.
fn machine(archive: &[u8]) -> Option<&'static str> {
    let at = archive.windows(4).position(|four| four == b"\x7fELF")?;
    let (order, number) = (*archive.get(at + 5)?, [*archive.get(at + 18)?, *archive.get(at + 19)?]);
    match if order == 2 { u16::from_be_bytes(number) } else { u16::from_le_bytes(number) } {
        22 => Some("s390x"),
        40 => None, // armv7 and thumbv7em have one number
        62 => Some("x86_64"),
        183 => Some("aarch64"),
        243 => Some("riscv64"),
        _ => None,
    }
}
