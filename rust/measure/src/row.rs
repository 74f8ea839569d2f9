//! The table of results: a row for each call on each table, with ratios in one run.

use crate::clock::{median, Runs};
use crate::messages::{name, ORDERS, SIZES};
use std::fmt::Write;

/// The library comes first; the others stand in the columns behind it, but for the last, another call of the library: a Report for each of many ranges, a Top for one within
/// an allowance, an Add for a message of one change, a Rebuild for one of several.
pub const CONTENDERS: [&str; 6] = ["library", "file", "halved", "SQLite", "plain", "own"];

/// Of tours, which have no state beside.
pub const PRESSED: &str = "pressed";
/// Of the table to which messages are applied.
pub const NINE_TENTHS: &str = "90 % full";
/// The calls with many ranges.
pub const NARROW: &str = "64 ranges, narrow, 0.1 %";
pub const WIDE: &str = "64 ranges, wide, 1 %";
/// What is asked of a Top within an allowance, and the allowances.
pub const TEN: &str = "top 10 of 10 %";
pub const THOUSAND: &str = "top 1,000 of all";
pub const ALLOWANCES: [(u32, &str); 3] = [(4, "4 nodes"), (16, "16 nodes"), (u32::MAX, "any number")];

pub struct Row {
    pub blocks: usize,
    pub state: &'static str,
    pub call: String,
    pub spots: usize,
    /// By contender; none where there is nothing to set beside.
    pub runs: Vec<Option<Runs>>,
    /// Blocks read or written, a call: the library, the file read through, the file halved.
    pub touched: [Option<f64>; 3],
}

/// Two or three digits that say something.
fn short(v: f64, digits: i32) -> String {
    let places = if v <= 0.0 { 0 } else { (digits - 1 - v.log10().floor() as i32).max(0) };
    fixed(v, places as usize)
}

/// A number with this many digits behind the point, in groups of three before it.
fn fixed(v: f64, places: usize) -> String {
    let text = format!("{v:.places$}");
    let (whole, rest) = text.split_at(text.find('.').unwrap_or(text.len()));
    let mut out = String::new();
    for (i, c) in whole.chars().enumerate() {
        if i > 0 && (whole.len() - i) % 3 == 0 {
            out.push(',');
        }
        out.push(c);
    }
    out + rest
}

impl Row {
    pub fn nanoseconds(&self, contender: usize) -> Option<f64> {
        self.runs[contender].as_ref().map(|r| median(r))
    }

    fn ratio(&self, contender: usize) -> String {
        match (self.nanoseconds(0), self.nanoseconds(contender)) {
            (Some(ours), Some(other)) => short(ours / other, 2),
            _ => String::new(),
        }
    }

    fn spread(&self) -> String {
        let runs = self.runs[0].as_ref().unwrap();
        let low = runs.iter().copied().fold(f64::MAX, f64::min);
        let high = runs.iter().copied().fold(0.0, f64::max);
        format!("{}–{}", short(low / 1e3, 3), short(high / 1e3, 3))
    }

    pub fn markdown(&self) -> String {
        let mut s = format!("| {} | {} | {} | {} ", self.blocks, self.state, self.call, fixed(self.spots as f64, 0));
        write!(s, "| {} | {} ", short(self.nanoseconds(0).unwrap() / 1e3, 3), self.spread()).unwrap();
        for i in 1..CONTENDERS.len() - 1 {
            write!(s, "| {} ", self.ratio(i)).unwrap();
        }
        for t in self.touched {
            write!(s, "| {} ", t.map_or(String::new(), |n| fixed(n, (n.fract() != 0.0) as usize))).unwrap();
        }
        s + "|"
    }

    /// Every run, in nanoseconds a call.
    pub fn all_runs(&self) -> String {
        let mut s = String::new();
        for (name, runs) in CONTENDERS.iter().zip(&self.runs) {
            for (i, ns) in runs.iter().flatten().enumerate() {
                writeln!(s, "{}\t{}\t{}\t{}\t{name}\t{}\t{ns:.1}", self.blocks, self.state, self.call, self.spots, i + 1).unwrap();
            }
        }
        s
    }
}

pub const HEAD: &str =
    "| blocks | table | call | spots | library µs | lowest–highest | ÷ file | ÷ halved | ÷ SQLite | ÷ plain | blocks | file | halved |\n\
|---|---|---|---|---|---|---|---|---|---|---|---|---|";

/// Ratios of the library's own calls, where the table has them.
pub fn within(rows: &[Row]) -> String {
    let mut s = String::from("| blocks | table | everything ÷ Count | Top of all ÷ everything | Top of all ÷ Top 10,000 | Count, µs a block | Rebuild ÷ sort and copy | 64 narrow ranges in one call ÷ 64 single reports | 64 ranges of 1 % ÷ 64 single reports | Top 10 of 10 % within 4, 16, any number of nodes ÷ Top | Top 1,000 of all within so many ÷ Top |\n|---|---|---|---|---|---|---|---|---|---|---|\n");
    let mut kinds: Vec<(usize, &str)> = rows.iter().map(|r| (r.blocks, r.state)).collect();
    kinds.dedup();
    kinds.retain(|kind| ![PRESSED, NINE_TENTHS].contains(&kind.1));
    for (blocks, state) in kinds {
        let find = |call: &str| rows.iter().find(|r| r.blocks == blocks && r.state == state && r.call == call);
        let time = |call: &str| find(call).and_then(|r| r.nanoseconds(0));
        let ratio = |a: Option<f64>, b: Option<f64>| a.zip(b).map_or(String::new(), |(a, b)| short(a / b, 2));
        let (all, count, best) = (time("report everything"), time("count"), time("top all of all"));
        let each = find("count").and_then(|r| r.touched[0]).zip(count).map_or(String::new(), |(n, ns)| short(ns / 1e3 / n, 2));
        let beside = |call: &str, contender: usize| find(call).map_or(String::new(), |r| r.ratio(contender));
        let tops = [ratio(best, all), ratio(best, time("top 10,000 of all"))].join(" | ");
        let each_of = |call: &str| ALLOWANCES.map(|(_, text)| beside(&format!("{call}, {text}"), 5)).join(", ");
        let within = [TEN, THOUSAND].map(|call| if find(call).is_some() { each_of(call) } else { String::new() }).join(" | ");
        let line = [ratio(all, count), tops, each, beside("rebuild", 4), beside(NARROW, 5), beside(WIDE, 5), within].join(" | ");
        writeln!(s, "| {blocks} | {state} | {line} |").unwrap();
    }
    s
}

/// Messages beside Add and Rebuild, where the table has them.
pub fn applied(rows: &[Row]) -> String {
    let mut s = String::from("| blocks | order of the changes | 1 change ÷ Add | 16 changes ÷ Rebuild | 256 ÷ Rebuild | 4,096 ÷ Rebuild |\n|---|---|---|---|---|---|\n");
    let mut sizes: Vec<usize> = rows.iter().filter(|r| r.state == NINE_TENTHS).map(|r| r.blocks).collect();
    sizes.dedup();
    for (blocks, order) in sizes.into_iter().flat_map(|n| ORDERS.map(|order| (n, order))) {
        let find = |call: String| rows.iter().find(|r| r.blocks == blocks && r.state == NINE_TENTHS && r.call == call);
        let ratios = SIZES.map(|size| find(name(size, order)).map_or(String::new(), |r| r.ratio(5)));
        writeln!(s, "| {blocks} | {order} | {} |", ratios.join(" | ")).unwrap();
    }
    s
}
