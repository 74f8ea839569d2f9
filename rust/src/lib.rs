//! Safe Rust over the proved spot table: up to 65,520 spots (a place, a rank, a track) in lent memory; messages, lists of changes to a table; and pressed tours, read-only tables
//! of up to 512 spots.
//!
//! [`Table`], [`Message`] and [`Tour`] answer with `Result`; the sixteen functions of the crate ([`format`], [`add`], ...) give the library's own [`Answer`]. Every call ends on any bytes and
//! arguments, touches only what it was lent, and allocates nothing; a refused call changes no byte but its work area (see [`Refusal`]). Places lie from [`LOWEST_PLACE`] to
//! [`HIGHEST_PLACE`]; the ends of a range may be any numbers.
//!
//! Two conventions hold everywhere. The arguments are the table (tour, message), then what is asked, then the memory lent for it. What reads bytes that may hold something else
//! ([`Spot::read`], [`spots`], [`message_len`], ...) gives an `Option`, and nothing panics.
//!
//! ```
//! use spot_table::{Range, ReadMap, Spot, Table, BLOCK};
//!
//! let mut work = vec![0; 9 * BLOCK];
//! let mut table = Table::format(vec![0; 9 * BLOCK])?;
//! table.add(Spot { place: 0, rank: 5, track: 1 }, &mut work)?;
//! table.add(Spot { place: 240, rank: 7, track: 2 }, &mut work)?;
//! table.withdraw(0, 5, &mut work)?;
//!
//! let (mut output, mut map) = ([0; 128 * 12], ReadMap::new());
//! let spots = table.report(Range::new(0..=240, 5), &mut output, &mut map)?;
//! assert_eq!(spots.collect::<Vec<_>>(), [Spot { place: 240, rank: 7, track: 2 }]);
//! assert_eq!(map.blocks().collect::<Vec<_>>(), [0, 1]);
//! # Ok::<(), spot_table::Refusal>(())
//! ```
//!
//! With the feature `alloc`, `report_to_vec`, `top_to_vec` and others give a `Vec<Spot>` and make room for it themselves:
//!
//! ```
//! # #[cfg(feature = "alloc")] {
//! use spot_table::{Range, Spot, Table, BLOCK};
//!
//! let mut work = vec![0; 9 * BLOCK];
//! let mut table = Table::format(vec![0; 9 * BLOCK])?;
//! table.add(Spot { place: 0, rank: 5, track: 1 }, &mut work)?;
//! assert_eq!(table.report_to_vec(Range::ALL)?, [Spot { place: 0, rank: 5, track: 1 }]);
//! # }
//! # Ok::<(), spot_table::Refusal>(())
//! ```
//!
//! A call needs at most [`STACK`] bytes of stack. The format of a table is version 1 and stays readable: see CHANGELOG.md.
#![no_std]
#![warn(missing_docs, clippy::missing_errors_doc, clippy::missing_panics_doc, clippy::undocumented_unsafe_blocks)]

#[cfg(feature = "alloc")]
extern crate alloc;

#[cfg(feature = "alloc")]
mod to_vec;

mod message;
mod raw;
mod refusal;
mod spots;
mod table;
mod tour;

pub use message::{changes, message_len, Change, Changes, Message, MessageRefusal};
pub use raw::{
    add, apply, blocks_read, check, count, format, press, read_message, rebuild, report, report_many, top, top_within, tour_report,
    withdraw, write_message, Answer,
};
pub use refusal::Refusal;
pub use spots::{marked, reports, spots, Blocks, Places, Range, ReadMap, Reports, Spot, Spots, Within};
pub use table::Table;
pub use tour::{tour_len, Tour};

/// Bytes of a block.
pub const BLOCK: usize = 2048;
/// Bytes of a spot in an output: place, rank and track, big-endian.
pub const SPOT: usize = 12;
/// Bytes of a read map.
pub const MAP: usize = 512;
/// The fewest blocks of a table.
pub const FEWEST_BLOCKS: usize = 9;
/// The most blocks of a table.
pub const MOST_BLOCKS: usize = 4096;
/// The most ranges of a Report of many ranges.
pub const MOST_RANGES: usize = 64;
/// The lowest place of a spot, in centimetres. The ends of a range may be any numbers.
pub const LOWEST_PLACE: i32 = -1_000_000;
/// The highest place of a spot, in centimetres. The difference of two places fits `i32`.
pub const HIGHEST_PLACE: i32 = 1_000_000;
/// Bytes that have to be lent to press a tour: its most blocks.
pub const TOUR: usize = TOUR_BLOCKS * BLOCK;
/// The most blocks of a tour.
pub const TOUR_BLOCKS: usize = 16;
/// The most spots of a tour.
pub const TOUR_SPOTS: usize = 512;
/// The most changes of a message.
pub const MOST_CHANGES: usize = 4096;
/// Bytes of a change in a list: a kind, 1 for an addition or 2 for a withdrawal, and the spot, with zeros for the track of a withdrawal.
pub const CHANGE: usize = 13;
/// Bytes of the longest message: 4,096 additions.
pub const MESSAGE: usize = 7 + MOST_CHANGES * CHANGE;
/// Bytes of stack that suffice for every call: the largest figure of `include/spot_table.h`, which `measure/stack` holds against the built archive.
pub const STACK: usize = 393_216;

/// The spots that a table of this many bytes holds: 16 for each block after the first.
pub const fn capacity(table_len: usize) -> usize {
    16 * (table_len / BLOCK).saturating_sub(1)
}
