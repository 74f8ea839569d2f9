//! The calls as the library has them: lent slices, and an answer of two numbers. First comes the table, tour or message, then what is asked, then the memory lent for it.
use crate::{Places, Range, Refusal, Spot};

// A length has 64 bits on every target, also where usize has 32.
extern "C" {
    fn spot_format(table: *mut u8, len: u64) -> u64;
    fn spot_count(table: *const u8, len: u64) -> u64;
    fn spot_check(table: *const u8, len: u64) -> u64;
    fn spot_report(
        table: *const u8,
        len: u64,
        x1: i32,
        x2: i32,
        y: i32,
        output: *mut u8,
        output_len: u64,
        read_map: *mut u8,
        read_map_len: u64,
    ) -> u64;
    fn spot_report_many(
        table: *const u8,
        len: u64,
        ranges: *const Range,
        ranges_len: u64,
        counts: *mut u32,
        counts_len: u64,
        output: *mut u8,
        output_len: u64,
        read_map: *mut u8,
        read_map_len: u64,
    ) -> u64;
    fn spot_top(
        table: *const u8,
        len: u64,
        x1: i32,
        x2: i32,
        k: u32,
        output: *mut u8,
        output_len: u64,
        read_map: *mut u8,
        read_map_len: u64,
    ) -> u64;
    fn spot_top_within(
        table: *const u8,
        len: u64,
        x1: i32,
        x2: i32,
        k: u32,
        allowance: u32,
        output: *mut u8,
        output_len: u64,
        read_map: *mut u8,
        read_map_len: u64,
        ceiling: *mut i32,
    ) -> u64;
    fn spot_blocks_read(read_map: *const u8, read_map_len: u64) -> u64;
    fn spot_add(table: *mut u8, len: u64, work: *mut u8, work_len: u64, place: i32, rank: i32, track: u32) -> u64;
    fn spot_withdraw(table: *mut u8, len: u64, work: *mut u8, work_len: u64, place: i32, rank: i32) -> u64;
    fn spot_rebuild(table: *mut u8, len: u64, work: *mut u8, work_len: u64) -> u64;
    fn spot_apply(table: *mut u8, len: u64, work: *mut u8, work_len: u64, message: *const u8, message_len: u64) -> u64;
    fn spot_write_message(changes: *const u8, changes_len: u64, message: *mut u8, message_len: u64) -> u64;
    fn spot_read_message(message: *const u8, message_len: u64, changes: *mut u8, changes_len: u64) -> u64;
    fn spot_press(spots: *const u8, spots_len: u64, tour: *mut u8, tour_len: u64) -> u64;
    fn spot_tour_report(
        tour: *const u8,
        len: u64,
        x1: i32,
        x2: i32,
        y: i32,
        output: *mut u8,
        output_len: u64,
        read_map: *mut u8,
        read_map_len: u64,
    ) -> u64;
}

/// What a call answers: 0 with its detail, or a number of refusal.
#[must_use = "the answer may be a refusal"]
#[derive(Clone, Copy, Debug, PartialEq, Eq, Hash)]
pub struct Answer {
    /// 0, or the number of the refusal.
    pub number: u32,
    /// The number of spots for Report, Report of many ranges, Top, Top within an allowance, Report of a tour and Count, of blocks for [`blocks_read`], 1 or 0 for Check, how
    /// many spots there are after refusal 5, the position of a change after 4 and 9 of a message, else 0.
    pub detail: u32,
}

impl Answer {
    /// The answer of these two numbers.
    pub const fn new(number: u32, detail: u32) -> Answer {
        Answer { number, detail }
    }

    /// The detail of an accepted call, or the refusal; the position of a change is in `detail`.
    ///
    /// ```
    /// use spot_table::{count, format, Answer, Refusal};
    /// let mut table = [7; 9 * 2048];
    /// assert_eq!(count(&table), Answer::new(3, 0));
    /// assert_eq!(count(&table).result(), Err(Refusal::Broken));
    /// assert_eq!(format(&mut table).result(), Ok(0));
    /// ```
    ///
    /// # Errors
    ///
    /// The refusal, where the number is not 0.
    pub fn result(self) -> Result<u32, Refusal> {
        match Refusal::new(self.number, self.detail) {
            None => Ok(self.detail),
            Some(refusal) => Err(refusal),
        }
    }

    fn unpack(packed: u64) -> Answer {
        Answer { number: (packed >> 32) as u32, detail: packed as u32 }
    }
}

impl From<Answer> for Result<u32, Refusal> {
    fn from(answer: Answer) -> Self {
        answer.result()
    }
}

fn len<T>(lent: &[T]) -> u64 {
    lent.len() as u64
}

/// Makes the empty table.
pub fn format(table: &mut [u8]) -> Answer {
    // SAFETY: the pointer and the length are those of a slice, which is borrowed for the call; the library touches nothing else and keeps nothing.
    Answer::unpack(unsafe { spot_format(table.as_mut_ptr(), len(table)) })
}

/// The number of live spots.
pub fn count(table: &[u8]) -> Answer {
    // SAFETY: as in `format`.
    Answer::unpack(unsafe { spot_count(table.as_ptr(), len(table)) })
}

/// Detail 1 where the table is sound, else 0.
pub fn check(table: &[u8]) -> Answer {
    // SAFETY: as in `format`.
    Answer::unpack(unsafe { spot_check(table.as_ptr(), len(table)) })
}

/// All live spots with x1 ≤ place ≤ x2 and rank ≥ y, rising in place order; the read map marks the blocks read. If x1 is greater than x2, the range runs on past the door: the spots
/// of all places from x1 up come first, followed by those of all places up to x2.
pub fn report(table: &[u8], range: Range, output: &mut [u8], read_map: &mut [u8]) -> Answer {
    let Range { x1, x2, y } = range;
    let (out, out_len, map, map_len) = (output.as_mut_ptr(), len(output), read_map.as_mut_ptr(), len(read_map));
    // SAFETY: as in `format`; the borrows keep the slices apart.
    Answer::unpack(unsafe { spot_report(table.as_ptr(), len(table), x1, x2, y, out, out_len, map, map_len) })
}

/// Up to 64 reports in one call: the spots of each range as [`report`] gives them, in the order handed in. There are as many counts as ranges, and each becomes the number of its
/// range's spots; detail is their sum. The read map marks block 0 and the blocks that any of the reports reads.
///
/// ```
/// use spot_table::{add, format, report_many, reports, Answer, Range, Spot};
/// let (mut table, mut work) = ([0; 9 * 2048], [0; 9 * 2048]);
/// assert_eq!(format(&mut table), Answer::new(0, 0));
/// assert_eq!(add(&mut table, Spot { place: 240, rank: 7, track: 2 }, &mut work), Answer::new(0, 0));
/// let (mut counts, mut output, mut map) = ([0; 2], [0; 24], [0; 512]);
/// let ranges = [Range::new(0..=100, 5), Range::new(0..=300, 5)];
/// assert_eq!(report_many(&table, &ranges, &mut counts, &mut output, &mut map), Answer::new(0, 1));
/// assert_eq!(counts, [0, 1]);
/// assert_eq!(reports(&output, &counts).unwrap().map(|spots| spots.len()).collect::<Vec<_>>(), [0, 1]);
/// ```
pub fn report_many(table: &[u8], ranges: &[Range], counts: &mut [u32], output: &mut [u8], read_map: &mut [u8]) -> Answer {
    // SAFETY: as in `report`; a `Range` is laid out as C has it.
    Answer::unpack(unsafe {
        spot_report_many(
            table.as_ptr(),
            len(table),
            ranges.as_ptr(),
            len(ranges),
            counts.as_mut_ptr(),
            len(counts),
            output.as_mut_ptr(),
            len(output),
            read_map.as_mut_ptr(),
            len(read_map),
        )
    })
}

/// Of the live spots with x1 ≤ place ≤ x2 the k of highest rank, the highest first, of equal ranks those of lower places, the lower first; the read map marks the blocks read.
/// If x1 is greater than x2, the range runs on past the door as for [`report`]; the order is the same.
pub fn top(table: &[u8], places: Places, k: u32, output: &mut [u8], read_map: &mut [u8]) -> Answer {
    let Places { x1, x2 } = places;
    let (out, out_len, map, map_len) = (output.as_mut_ptr(), len(output), read_map.as_mut_ptr(), len(read_map));
    // SAFETY: as in `report`.
    Answer::unpack(unsafe { spot_top(table.as_ptr(), len(table), x1, x2, k, out, out_len, map, map_len) })
}

/// [`top`] with at most so many node blocks read: the first of its spots, those that are certain by then, and the ceiling: no other live spot of the range has a rank above it.
/// The root counts as a node block, block 0 doesn't. The ceiling is -2147483648 if nothing else is left; 2147483647 with an allowance or a k of 0, where block 0 alone is read; and
/// 0 after a refusal.
///
/// ```
/// use spot_table::{add, format, top_within, Answer, Spot};
/// let (mut table, mut work) = ([0; 9 * 2048], [0; 9 * 2048]);
/// assert_eq!(format(&mut table), Answer::new(0, 0));
/// assert_eq!(add(&mut table, Spot { place: 0, rank: 5, track: 1 }, &mut work), Answer::new(0, 0));
/// assert_eq!(add(&mut table, Spot { place: 240, rank: 7, track: 2 }, &mut work), Answer::new(0, 0));
/// let (mut output, mut map) = ([0; 12], [0; 512]);
/// assert_eq!(top_within(&table, (0..=240).into(), 1, 4, &mut output, &mut map), (Answer::new(0, 1), 5));
/// assert_eq!(top_within(&table, (0..=240).into(), 1, 0, &mut output, &mut map), (Answer::new(0, 0), i32::MAX));
/// ```
pub fn top_within(table: &[u8], places: Places, k: u32, allowance: u32, output: &mut [u8], read_map: &mut [u8]) -> (Answer, i32) {
    let mut ceiling = 0;
    // SAFETY: as in `report`; the ceiling is a number of its own.
    let answer = Answer::unpack(unsafe {
        spot_top_within(
            table.as_ptr(),
            len(table),
            places.x1,
            places.x2,
            k,
            allowance,
            output.as_mut_ptr(),
            len(output),
            read_map.as_mut_ptr(),
            len(read_map),
            &mut ceiling,
        )
    });
    (answer, ceiling)
}

/// The number of blocks that a read map of 512 bytes marks: those that the call which left it has read, block 0 included. The blocks themselves are [`marked`](crate::marked).
///
/// ```
/// use spot_table::{blocks_read, format, report, Answer, Range};
/// let (mut table, mut output, mut map) = ([0; 9 * 2048], [0; 12], [0; 512]);
/// assert_eq!(format(&mut table), Answer::new(0, 0));
/// assert_eq!(report(&table, Range { x1: 0, x2: 240, y: 5 }, &mut output, &mut map), Answer::new(0, 0));
/// assert_eq!(blocks_read(&map), Answer::new(0, 2));
/// assert_eq!(blocks_read(&map[1..]), Answer::new(2, 0));
/// ```
pub fn blocks_read(read_map: &[u8]) -> Answer {
    // SAFETY: as in `format`.
    Answer::unpack(unsafe { spot_blocks_read(read_map.as_ptr(), len(read_map)) })
}

/// Puts the spot in, in the place of one of the same place and rank, with a work area of at least the table's length. A place that doesn't lie from
/// [`LOWEST_PLACE`](crate::LOWEST_PLACE) to [`HIGHEST_PLACE`](crate::HIGHEST_PLACE) gives 9, also where the table is full.
///
/// ```
/// use spot_table::{add, format, withdraw, Answer, Spot, HIGHEST_PLACE};
/// let (mut table, mut work) = ([0; 9 * 2048], [0; 9 * 2048]);
/// assert_eq!(format(&mut table), Answer::new(0, 0));
/// let last = Spot { place: HIGHEST_PLACE, rank: 5, track: 1 };
/// assert_eq!(add(&mut table, last, &mut work), Answer::new(0, 0));
/// assert_eq!(add(&mut table, Spot { place: HIGHEST_PLACE + 1, ..last }, &mut work), Answer::new(9, 0));
/// assert_eq!(withdraw(&mut table, HIGHEST_PLACE + 1, 5, &mut work), Answer::new(9, 0));
/// ```
pub fn add(table: &mut [u8], spot: Spot, work: &mut [u8]) -> Answer {
    let Spot { place, rank, track } = spot;
    // SAFETY: as in `report`.
    Answer::unpack(unsafe { spot_add(table.as_mut_ptr(), len(table), work.as_mut_ptr(), len(work), place, rank, track) })
}

/// Takes out the spot of this place and rank, if there is one, with a work area of at least the table's length. A place that doesn't lie from
/// [`LOWEST_PLACE`](crate::LOWEST_PLACE) to [`HIGHEST_PLACE`](crate::HIGHEST_PLACE) gives 9.
pub fn withdraw(table: &mut [u8], place: i32, rank: i32, work: &mut [u8]) -> Answer {
    // SAFETY: as in `report`.
    Answer::unpack(unsafe { spot_withdraw(table.as_mut_ptr(), len(table), work.as_mut_ptr(), len(work), place, rank) })
}

/// Lays the live spots out anew, with a work area of at least the table's length.
pub fn rebuild(table: &mut [u8], work: &mut [u8]) -> Answer {
    // SAFETY: as in `report`.
    Answer::unpack(unsafe { spot_rebuild(table.as_mut_ptr(), len(table), work.as_mut_ptr(), len(work)) })
}

/// Applies a message, which is lent as it was received, with a work area of at least the table's length: its changes one after another, as [`add`] and [`withdraw`] would, or none of them. If one
/// would be turned down, the table stays as it was: 4, with the position, from 0, of the first addition that finds no room after the changes before it. 8 where the bytes are no
/// message, then 9 with the position of the first change whose place lies outside the limits; both come before 3. After 4, 8 and 9 the work area is as it was, too.
///
/// ```
/// use spot_table::{apply, count, format, message_len, write_message, Answer, Change, Spot};
/// let (mut table, mut work) = ([0; 9 * 2048], [0; 9 * 2048]);
/// assert_eq!(format(&mut table), Answer::new(0, 0));
/// let changes = [Change::Add(Spot { place: 0, rank: 5, track: 1 }), Change::Withdraw { place: 0, rank: 6 }].map(Change::to_bytes).concat();
/// let mut lent = [0; 100];
/// assert_eq!(write_message(&changes, &mut lent), Answer::new(0, 0));
/// let message = &lent[..message_len(&lent).unwrap()];
/// assert_eq!(apply(&mut table, message, &mut work), Answer::new(0, 0));
/// assert_eq!(count(&table), Answer::new(0, 1));
/// assert_eq!(apply(&mut table, &message[1..], &mut work), Answer::new(8, 0));
/// ```
pub fn apply(table: &mut [u8], message: &[u8], work: &mut [u8]) -> Answer {
    // SAFETY: as in `report`.
    Answer::unpack(unsafe { spot_apply(table.as_mut_ptr(), len(table), work.as_mut_ptr(), len(work), message.as_ptr(), len(message)) })
}

/// The message of up to 4,096 changes of 13 bytes ([`Change::to_bytes`](crate::Change::to_bytes)). It stands at the front of the lent bytes, as long as its first four bytes say
/// ([`message_len`](crate::message_len)), and the bytes behind it stay as they were. Asked in this order: 8 where the bytes are no list of changes, 2 where the message finds no room, 9
/// with the position of the first change whose place lies outside the limits.
pub fn write_message(changes: &[u8], message: &mut [u8]) -> Answer {
    // SAFETY: as in `report`.
    Answer::unpack(unsafe { spot_write_message(changes.as_ptr(), len(changes), message.as_mut_ptr(), len(message)) })
}

/// The changes of a message, which is lent exactly: 13 bytes each ([`changes`](crate::changes)), at the front of the lent bytes; those behind them stay as they were. Asked in this order: 8
/// where the bytes are no message, 2 where the changes find no room, 9 with the position of the first change whose place lies outside the limits.
///
/// ```
/// use spot_table::{read_message, Answer};
/// let message = [0, 0, 0, 16, 1, 0, 1, 2, 0, 0, 0, 240, 0, 0, 0, 7];
/// let mut changes = [9; 14];
/// assert_eq!(read_message(&message, &mut changes), Answer::new(0, 0));
/// assert_eq!(changes, [2, 0, 0, 0, 240, 0, 0, 0, 7, 0, 0, 0, 0, 9]);
/// assert_eq!(read_message(&message, &mut changes[..12]), Answer::new(2, 0));
/// ```
pub fn read_message(message: &[u8], changes: &mut [u8]) -> Answer {
    // SAFETY: as in `report`.
    Answer::unpack(unsafe { spot_read_message(message.as_ptr(), len(message), changes.as_mut_ptr(), len(changes)) })
}

/// Presses a tour, a read-only table: up to 512 spots of 12 bytes ([`Spot::to_bytes`]), strictly rising by place, then by rank. At least [`TOUR`](crate::TOUR) bytes are lent; the tour
/// stands at their front, as long as its first four bytes say ([`tour_len`](crate::tour_len)), and the bytes behind it stay as they were.
///
/// ```
/// use spot_table::{press, tour_len, tour_report, Answer, Range, Spot, TOUR};
/// let spots = [Spot { place: 0, rank: 5, track: 1 }, Spot { place: 240, rank: 7, track: 2 }].map(Spot::to_bytes).concat();
/// let mut lent = [0; TOUR];
/// assert_eq!(press(&spots, &mut lent), Answer::new(0, 0));
/// let tour = &lent[..tour_len(&lent).unwrap()];
/// assert_eq!(tour.len(), 2 * 2048);
///
/// let (mut output, mut map) = ([0; 24], [0; 512]);
/// assert_eq!(tour_report(tour, Range::new(0..=240, 6), &mut output, &mut map), Answer::new(0, 1));
/// assert_eq!(output[..12], spots[12..]);
/// assert_eq!(map[0], 0b11);
///
/// assert_eq!(press(&spots[..23], &mut lent), Answer::new(7, 0));
/// ```
pub fn press(spots: &[u8], tour: &mut [u8]) -> Answer {
    // SAFETY: as in `report`.
    Answer::unpack(unsafe { spot_press(spots.as_ptr(), len(spots), tour.as_mut_ptr(), len(tour)) })
}

/// [`report`] on a pressed tour, which is lent exactly, without the bytes behind it. The read map marks the blocks read: the catalogue, and at most 3 + 2 · (spots div 64) others,
/// for a range past the door 4 + 2 · (spots div 64).
///
/// ```
/// use spot_table::{tour_report, Answer, Range};
/// let (mut output, mut map) = ([0; 24], [0; 512]);
/// assert_eq!(tour_report(&[0; 17 * 2048], Range::ALL, &mut output, &mut map), Answer::new(1, 0));
/// assert_eq!(tour_report(&[0; 2048], Range::ALL, &mut output, &mut map), Answer::new(3, 0));
/// ```
pub fn tour_report(tour: &[u8], range: Range, output: &mut [u8], read_map: &mut [u8]) -> Answer {
    let Range { x1, x2, y } = range;
    let (out, out_len, map, map_len) = (output.as_mut_ptr(), len(output), read_map.as_mut_ptr(), len(read_map));
    // SAFETY: as in `report`.
    Answer::unpack(unsafe { spot_tour_report(tour.as_ptr(), len(tour), x1, x2, y, out, out_len, map, map_len) })
}
