//! The proved calls, over a table, a message or a pressed tour in memory. No other module knows the library.

use crate::spot::{Key, Spot};
use spot_table::{Answer, Places, Range, CHANGE, MAP, MESSAGE, MOST_RANGES, SPOT, TOUR, TOUR_BLOCKS};
pub use spot_table::{BLOCK, HIGHEST_PLACE, LOWEST_PLACE, MOST_CHANGES, TOUR_SPOTS};
use std::collections::BTreeSet;

pub const LEAST_BLOCKS: usize = 9;
pub const MOST_BLOCKS: usize = 4096;
/// Capacity: spots for each block after block 0.
pub const SPOTS_A_BLOCK: usize = 16;

/// A call takes 384 KB of stack at most (`spot_table::STACK`); the rest is room for the thread itself.
const STACK: usize = 8 << 20;

/// The library's numbers of refusal.
#[derive(Debug, thiserror::Error, PartialEq, Eq)]
pub enum Refusal {
    #[error("a card is 9 to 4,096 whole blocks of 2,048 bytes")]
    Length,
    #[error("the library was lent too little memory; this is a mistake in spotcard, please report it")]
    Lent,
    #[error("the card breaks a rule of its layout; `spotcard check` says which")]
    Unsound,
    #[error("the card is full")]
    Full,
    #[error("more spots than were made room for; this is a mistake in spotcard, please report it")]
    Room,
    #[error("at most 64 ranges can be asked for at once")]
    Ranges,
    #[error("a tour takes up to 512 spots in place order; this is a mistake in spotcard, please report it")]
    NotPressable,
    #[error("these bytes are no message")]
    NotAMessage,
    #[error("a place has to lie from {LOWEST_PLACE} to {HIGHEST_PLACE} cm")]
    Place,
}

fn accepted(answer: Answer) -> Result<usize, Refusal> {
    match answer.number {
        0 => Ok(answer.detail as usize),
        1 => Err(Refusal::Length),
        2 => Err(Refusal::Lent),
        3 => Err(Refusal::Unsound),
        4 => Err(Refusal::Full),
        5 => Err(Refusal::Room),
        6 => Err(Refusal::Ranges),
        7 => Err(Refusal::NotPressable),
        8 => Err(Refusal::NotAMessage),
        _ => Err(Refusal::Place),
    }
}

/// The same of changes: a refusal comes with the position of the first change to which it applies, or 0.
fn accepted_changes(answer: Answer) -> Result<(), (Refusal, usize)> {
    accepted(answer).map(|_| ()).map_err(|refusal| (refusal, answer.detail as usize))
}

/// What a Report or a Top gives: the spots in its order, and the blocks that it read.
pub struct Found {
    pub spots: Vec<Spot>,
    pub blocks: Vec<usize>,
}

/// A table in memory, and the work area that changes need.
pub struct Table {
    bytes: Vec<u8>,
    work: Vec<u8>,
}

/// Whether a file of this length can be a table.
pub fn is_length(bytes: u64) -> bool {
    let blocks = bytes / BLOCK as u64;
    bytes.is_multiple_of(BLOCK as u64) && (LEAST_BLOCKS as u64..=MOST_BLOCKS as u64).contains(&blocks)
}

impl Table {
    /// An empty table.
    pub fn empty(blocks: usize) -> Result<Table, Refusal> {
        let mut table = Table::of(vec![0; blocks * BLOCK])?;
        accepted(spot_table::format(&mut table.bytes))?;
        Ok(table)
    }

    /// A table of these bytes, whatever they hold.
    pub fn of(bytes: Vec<u8>) -> Result<Table, Refusal> {
        if !is_length(bytes.len() as u64) {
            return Err(Refusal::Length);
        }
        let work = vec![0; bytes.len()];
        Ok(Table { bytes, work })
    }

    pub fn bytes(&self) -> &[u8] {
        &self.bytes
    }

    pub fn blocks(&self) -> usize {
        self.bytes.len() / BLOCK
    }

    pub fn capacity(&self) -> usize {
        SPOTS_A_BLOCK * (self.blocks() - 1)
    }

    pub fn is_sound(&self) -> Result<bool, Refusal> {
        Ok(accepted(spot_table::check(&self.bytes))? == 1)
    }

    pub fn count(&self) -> Result<usize, Refusal> {
        accepted(spot_table::count(&self.bytes))
    }

    pub fn add(&mut self, spot: Spot) -> Result<(), Refusal> {
        let Spot { place, rank, track } = spot;
        let spot = spot_table::Spot { place, rank, track };
        accepted(spot_table::add(&mut self.bytes, spot, &mut self.work)).map(|_| ())
    }

    pub fn withdraw(&mut self, key: Key) -> Result<(), Refusal> {
        let (bytes, work) = (&mut self.bytes, &mut self.work);
        accepted(spot_table::withdraw(bytes, key.place, key.rank, work)).map(|_| ())
    }

    /// All changes of the message, or none and the position of the first that is turned down.
    pub fn apply(&mut self, message: &Message) -> Result<(), (Refusal, usize)> {
        accepted_changes(spot_table::apply(&mut self.bytes, &message.bytes, &mut self.work))
    }

    pub fn rebuild(&mut self) -> Result<(), Refusal> {
        accepted(spot_table::rebuild(&mut self.bytes, &mut self.work)).map(|_| ())
    }

    /// The live spots from place x1 to x2 with rank y or more, rising in place order. If x1 is greater, the places from x1 up and then those up to x2.
    pub fn report(&self, x1: i32, x2: i32, y: i32) -> Result<Found, Refusal> {
        self.ask(1, |table, out, map| spot_table::report(table, Range { x1, x2, y }, out, map))
    }

    /// The reports of several ranges, each x1, x2 and y: the spots of each, and the blocks read for any of them.
    pub fn report_many(&self, ranges: &[(i32, i32, i32)]) -> Result<(Vec<Vec<Spot>>, Vec<usize>), Refusal> {
        let ranges: Vec<Range> = ranges.iter().map(|(x1, x2, y)| Range { x1: *x1, x2: *x2, y: *y }).collect();
        let mut counts = vec![0; ranges.len()];
        let found =
            self.ask(ranges.len().min(MOST_RANGES), |table, out, map| spot_table::report_many(table, &ranges, &mut counts, out, map))?;
        let mut spots = found.spots.into_iter();
        let each = counts.iter().map(|n| spots.by_ref().take(*n as usize).collect()).collect();
        Ok((each, found.blocks))
    }

    /// The k of highest rank of the live spots from place x1 to x2, or past the door, the highest first, of equal ranks the lower place.
    pub fn top(&self, x1: i32, x2: i32, k: u32) -> Result<Found, Refusal> {
        self.ask(1, |table, out, map| spot_table::top(table, Places { x1, x2 }, k, out, map))
    }

    /// The first of Top's spots, those that are certain once so many nodes are read, and the ceiling: no other live spot of the range has a rank above it.
    pub fn top_within(&self, x1: i32, x2: i32, k: u32, nodes: u32) -> Result<(Found, i32), Refusal> {
        let mut ceiling = 0;
        let found = self.ask(1, |table, out, map| {
            let (answer, highest) = spot_table::top_within(table, Places { x1, x2 }, k, nodes, out, map);
            ceiling = highest;
            answer
        })?;
        Ok((found, ceiling))
    }

    /// All live spots, rising in place order.
    pub fn all(&self) -> Result<Vec<Spot>, Refusal> {
        Ok(self.report(i32::MIN, i32::MAX, i32::MIN)?.spots)
    }

    /// The live spot of this place and rank.
    pub fn spot(&self, key: Key) -> Result<Option<Spot>, Refusal> {
        let found = self.report(key.place, key.place, key.rank)?;
        Ok(found.spots.into_iter().find(|s| s.key() == key))
    }

    /// A call that gives no spot more often than so many times.
    fn ask(&self, times: usize, call: impl FnOnce(&[u8], &mut [u8], &mut [u8]) -> Answer) -> Result<Found, Refusal> {
        ask(&self.bytes, self.capacity() * times, call)
    }
}

/// A spot that is put on a card, or one that is taken off.
#[derive(Clone, Copy, Debug, PartialEq, Eq)]
pub enum Change {
    Add(Spot),
    Withdraw(Key),
}

impl std::fmt::Display for Change {
    fn fmt(&self, f: &mut std::fmt::Formatter) -> std::fmt::Result {
        match self {
            Change::Add(spot) => write!(f, "add {} track {}", spot.key(), spot.track),
            Change::Withdraw(key) => write!(f, "withdraw {key}"),
        }
    }
}

/// The bytes of a message without changes.
pub const MESSAGE_HEAD: usize = 7;

/// A message in memory, and its changes.
#[derive(Debug)]
pub struct Message {
    bytes: Vec<u8>,
    pub changes: Vec<Change>,
}

impl Message {
    /// The message of up to `MOST_CHANGES` changes.
    pub fn write(changes: &[Change]) -> Result<Message, Refusal> {
        let row = |c: &Change| match *c {
            Change::Add(Spot { place, rank, track }) => spot_table::Change::Add(spot_table::Spot { place, rank, track }),
            Change::Withdraw(Key { place, rank }) => spot_table::Change::Withdraw { place, rank },
        };
        let list: Vec<u8> = changes.iter().flat_map(|c| row(c).to_bytes()).collect();
        let mut bytes = vec![0; MESSAGE];
        accepted(spot_table::write_message(&list, &mut bytes))?;
        bytes.truncate(spot_table::message_len(&bytes).ok_or(Refusal::NotAMessage)?);
        Ok(Message { bytes, changes: changes.to_vec() })
    }

    /// The message in these bytes, if they are one; else the refusal with its position.
    pub fn read(bytes: &[u8]) -> Result<Message, (Refusal, usize)> {
        let mut list = vec![0; CHANGE * MOST_CHANGES];
        accepted_changes(spot_table::read_message(bytes, &mut list))?;
        let row = |c: spot_table::Change| match c {
            spot_table::Change::Add(spot_table::Spot { place, rank, track }) => Some(Change::Add(Spot { place, rank, track })),
            spot_table::Change::Withdraw { place, rank } => Some(Change::Withdraw(Key { place, rank })),
            _ => None, // a kind that this version doesn't know
        };
        let count = usize::from(u16::from_be_bytes([bytes[5], bytes[6]]));
        let changes = spot_table::changes(&list, count).and_then(|all| all.map(row).collect());
        Ok(Message { bytes: bytes.to_vec(), changes: changes.ok_or((Refusal::NotAMessage, 0))? })
    }

    pub fn bytes(&self) -> &[u8] {
        &self.bytes
    }
}

/// Whether a file of this length can be a pressed tour.
pub fn is_tour_length(bytes: u64) -> bool {
    let block = BLOCK as u64;
    bytes.is_multiple_of(block) && (1..=TOUR_BLOCKS as u64).contains(&(bytes / block))
}

/// Whether these bytes begin as a pressed tour does. A card begins in the same way, with its length and its version, but its levels and its root, which come next, are never zero.
pub fn is_tour(bytes: &[u8]) -> bool {
    is_tour_length(bytes.len() as u64) && bytes[4..8] == [1, 0, 0, 0]
}

/// A pressed tour in memory.
#[derive(Debug)]
pub struct Tour {
    bytes: Vec<u8>,
}

impl Tour {
    /// The tour of these spots, which may come in any order.
    pub fn press(spots: &[Spot]) -> Result<Tour, Refusal> {
        let mut sorted = spots.to_vec();
        sorted.sort_unstable();
        let write = |s: &Spot| spot_table::Spot { place: s.place, rank: s.rank, track: s.track }.to_bytes();
        let given: Vec<u8> = sorted.iter().flat_map(write).collect();
        let mut bytes = vec![0; TOUR];
        accepted(spot_table::press(&given, &mut bytes))?;
        bytes.truncate(spot_table::tour_len(&bytes).ok_or(Refusal::NotPressable)?);
        Ok(Tour { bytes })
    }

    /// A tour of these bytes, whatever they hold.
    pub fn of(bytes: Vec<u8>) -> Tour {
        Tour { bytes }
    }

    pub fn bytes(&self) -> &[u8] {
        &self.bytes
    }

    pub fn blocks(&self) -> usize {
        self.bytes.len() / BLOCK
    }

    /// Whether its own spots, pressed again, give these very bytes.
    pub fn is_sound(&self) -> bool {
        let again = self.all().and_then(|spots| Tour::press(&spots));
        again.is_ok_and(|tour| tour.bytes == self.bytes)
    }

    /// As of a table.
    pub fn report(&self, x1: i32, x2: i32, y: i32) -> Result<Found, Refusal> {
        ask(&self.bytes, TOUR_SPOTS, |tour, out, map| spot_table::tour_report(tour, Range { x1, x2, y }, out, map))
    }

    /// As of a table: here one report after the other.
    pub fn report_many(&self, ranges: &[(i32, i32, i32)]) -> Result<(Vec<Vec<Spot>>, Vec<usize>), Refusal> {
        if ranges.len() > MOST_RANGES {
            return Err(Refusal::Ranges);
        }
        let (mut each, mut blocks) = (vec![], BTreeSet::new());
        for (x1, x2, y) in ranges {
            let found = self.report(*x1, *x2, *y)?;
            each.push(found.spots);
            blocks.extend(found.blocks);
        }
        Ok((each, blocks.into_iter().collect()))
    }

    /// All its spots, rising in place order.
    pub fn all(&self) -> Result<Vec<Spot>, Refusal> {
        Ok(self.report(i32::MIN, i32::MAX, i32::MIN)?.spots)
    }
}

/// What a call gives of the spots, at most so many, in these bytes.
fn ask(bytes: &[u8], most: usize, call: impl FnOnce(&[u8], &mut [u8], &mut [u8]) -> Answer) -> Result<Found, Refusal> {
    let mut out = vec![0; SPOT * most];
    let mut map = vec![0; MAP];
    let n = accepted(call(bytes, &mut out, &mut map))?;
    let spots = out.chunks_exact(SPOT).take(n).filter_map(read_spot).collect();
    let is_marked = |b: &usize| map[b / 8] >> (b % 8) & 1 == 1;
    let blocks = (0..bytes.len() / BLOCK).filter(is_marked).collect();
    Ok(Found { spots, blocks })
}

fn read_spot(bytes: &[u8]) -> Option<Spot> {
    spot_table::Spot::read(bytes).map(|spot_table::Spot { place, rank, track }| Spot { place, rank, track })
}

/// Runs the work on a thread whose stack is enough for every call.
pub fn on_deep_stack<T: Send>(work: impl FnOnce() -> T + Send) -> std::io::Result<T> {
    std::thread::scope(|scope| {
        let builder = std::thread::Builder::new().stack_size(STACK);
        let thread = builder.spawn_scoped(scope, work)?;
        match thread.join() {
            Ok(result) => Ok(result),
            Err(panic) => std::panic::resume_unwind(panic),
        }
    })
}
