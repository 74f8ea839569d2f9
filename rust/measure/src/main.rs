//! The library beside the flat file that guides read today, SQLite in memory and plain Rust, in one run. Prints the rows of docs/PERFORMANCE.md; tests nothing but that
//! all give the same spots.
//!
//! Usage: spot_measure [--quick] [--blocks N] [--runs FILE], spot_measure messages, or spot_measure histories. `measure/run` builds it and adds what the figures were taken on.

mod cases;
mod clock;
mod flat;
mod histories;
mod messages;
mod row;
#[cfg_attr(not(sqlite), path = "no_sqlite.rs")]
mod sqlite;
mod tour;

use cases::{Setting, STATES};
use spot_reference::Random;
use std::fs::File;
use std::io::Write;

fn sqlite_version() -> String {
    #[cfg(sqlite)]
    return sqlite::version();
    #[cfg(not(sqlite))]
    return "not installed, left out (Debian: libsqlite3-dev)".into();
}

fn main() -> std::io::Result<()> {
    let words: Vec<String> = std::env::args().skip(1).collect();
    let given = |word: &str| words.iter().position(|w| w == word);
    if given("histories").is_some() {
        histories::main();
        return Ok(());
    }
    if given("messages").is_some() {
        let rows = messages::rows(4096, 15, &mut Random(6));
        println!("{}", row::HEAD);
        rows.iter().for_each(|row| println!("{}", row.markdown()));
        println!("\n{}", row::applied(&rows));
        return Ok(());
    }
    if given("sqlite").is_some() {
        println!("{}", sqlite_version());
        return Ok(());
    }
    let quick = given("--quick").is_some();
    let mut file = given("--runs").and_then(|i| words.get(i + 1)).map(File::create).transpose()?;
    if let Some(f) = &mut file {
        writeln!(f, "blocks\ttable\tcall\tspots\tcontender\trun\tns")?;
    }
    let mut random = Random(42);
    let (rounds, mut rows) = (if quick { 3 } else { 9 }, vec![]);
    let mut keep = |row: row::Row| {
        println!("{}", row.markdown());
        let written = file.iter_mut().try_for_each(|f| f.write_all(row.all_runs().as_bytes()));
        rows.push(row);
        written
    };
    println!("{}", row::HEAD);
    // random numbers of their own, so that the tables stay as they were without them
    tour::rows(rounds, &mut Random(3)).into_iter().try_for_each(&mut keep)?;
    let one: Option<usize> = given("--blocks").and_then(|i| words.get(i + 1)).and_then(|n| n.parse().ok());
    let sizes = one.map_or(if quick { vec![32, 300] } else { vec![32, 300, 4096] }, |n| vec![n]);
    let largest = sizes.last().copied();
    for blocks in sizes {
        for state in STATES {
            eprintln!("{blocks} blocks, {state}");
            let setting = Setting::new(blocks, state, &mut random);
            setting.rows(rounds, quick, &mut random).into_iter().try_for_each(&mut keep)?;
        }
    }
    if let Some(blocks) = largest {
        eprintln!("{blocks} blocks, messages");
        messages::rows(blocks, rounds, &mut Random(6)).into_iter().try_for_each(&mut keep)?;
    }
    println!("\nRatios of the library's own calls:\n\n{}", row::within(&rows));
    println!("Messages beside Add and Rebuild:\n\n{}", row::applied(&rows));
    Ok(())
}
