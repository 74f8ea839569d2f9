//! The spot table's rules read plainly, apart from the proved library and without it: tables in many arrangements, soundness with its reasons ([`sound`], [`faults`]),
//! what damaged tables show ([`shown`]), what a Report and a Top within an allowance read, pressed tours, messages, histories of changes, and a walk in plain Rust as a yardstick. For tests, benchmarks and explanations; nothing here is proved.

mod explain;
pub mod histories;
mod layout;
pub mod message;
pub mod plain;
mod range;
pub mod shown;
mod tables;
mod tour;
mod tree;
mod within;
pub mod words;

pub use explain::{faults, sound, Fault, Way, MOST_FAULTS, RULES};
pub use layout::{in_limits, top_order, Key, HIGHEST_PLACE, LOWEST_PLACE};
pub use range::{holds, reported, reported_many, stretches};
pub use tables::{make, read_by_many, read_by_report, some_spots, Entry, Made, Node, Random};
pub use tour::{pressed, read_of_bytes, read_of_tour};
pub use tree::{nodes, Placed};
pub use within::{top_within, Within};
