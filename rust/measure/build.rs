//! Sets cfg(sqlite) where a program that uses SQLite can be linked (Debian: libsqlite3-dev).
use std::io::Write;
use std::process::{Command, Stdio};

fn links() -> Option<bool> {
    let out = std::path::PathBuf::from(std::env::var_os("OUT_DIR")?).join("try");
    let mut cc = Command::new("cc");
    cc.args(["-x", "c", "-", "-o"]).arg(out).arg("-lsqlite3").stdin(Stdio::piped()).stderr(Stdio::null());
    let mut child = cc.spawn().ok()?;
    child.stdin.take()?.write_all(b"#include <sqlite3.h>\nint main(void) { return sqlite3_libversion_number() == 0; }\n").ok()?;
    Some(child.wait().ok()?.success())
}

fn main() {
    println!("cargo:rerun-if-changed=build.rs");
    println!("cargo:rustc-check-cfg=cfg(sqlite)");
    if links() == Some(true) {
        println!("cargo:rustc-cfg=sqlite");
        println!("cargo:rustc-link-lib=sqlite3");
    }
}
