use crate::{blocks_read, MAP, SPOT};
use core::fmt;
use core::iter::FusedIterator;
use core::ops::{RangeFrom, RangeFull, RangeInclusive, RangeToInclusive};

/// A place in centimetres, a rank and a track number.
#[derive(Clone, Copy, Debug, PartialEq, Eq, Hash)]
pub struct Spot {
    /// Centimetres along the route. It lies from [`LOWEST_PLACE`](crate::LOWEST_PLACE) to [`HIGHEST_PLACE`](crate::HIGHEST_PLACE) in every spot that an accepted call gives, so the
    /// difference of two places fits `i32`.
    pub place: i32,
    /// The rank; with the place it is the spot's identity.
    pub rank: i32,
    /// The track to play.
    pub track: u32,
}

impl Spot {
    /// The spot in the first 12 bytes; none where there are fewer.
    pub fn read(bytes: &[u8]) -> Option<Spot> {
        bytes.first_chunk().map(Spot::of)
    }

    fn of(bytes: &[u8; SPOT]) -> Spot {
        let word = |i: usize| [bytes[i], bytes[i + 1], bytes[i + 2], bytes[i + 3]];
        Spot { place: i32::from_be_bytes(word(0)), rank: i32::from_be_bytes(word(4)), track: u32::from_be_bytes(word(8)) }
    }

    /// The 12 bytes from which `read` gives this spot.
    ///
    /// ```
    /// let spot = spot_table::Spot { place: 240, rank: -1, track: 2 };
    /// assert_eq!(spot.to_bytes(), [0, 0, 0, 240, 255, 255, 255, 255, 0, 0, 0, 2]);
    /// assert_eq!(spot_table::Spot::read(&spot.to_bytes()), Some(spot));
    /// ```
    pub fn to_bytes(self) -> [u8; SPOT] {
        let mut bytes = [0; SPOT];
        for (part, word) in bytes.chunks_exact_mut(4).zip([self.place as u32, self.rank as u32, self.track]) {
            part.copy_from_slice(&word.to_be_bytes());
        }
        bytes
    }
}

/// The places from x1 to x2, both inside, or, if x1 is greater, all from x1 up and then, past the door, all up to x2. The ends may be any numbers.
///
/// Rust's ranges with a last place that is inside, or without one, are taken as places, too.
///
/// ```
/// use spot_table::Places;
/// assert_eq!(Places::from(0..=240), Places { x1: 0, x2: 240 });
/// assert_eq!(Places::from(100..), Places { x1: 100, x2: i32::MAX });
/// assert_eq!(Places::from(..), Places::ALL);
/// let past_the_door = Places { x1: 240, x2: 0 };
/// # let _ = past_the_door;
/// ```
#[derive(Clone, Copy, Debug, PartialEq, Eq, Hash)]
pub struct Places {
    /// The first place.
    pub x1: i32,
    /// The last place.
    pub x2: i32,
}

impl Places {
    /// All of them.
    pub const ALL: Places = Places { x1: i32::MIN, x2: i32::MAX };
}

impl From<RangeInclusive<i32>> for Places {
    fn from(range: RangeInclusive<i32>) -> Places {
        let (x1, x2) = range.into_inner();
        Places { x1, x2 }
    }
}

impl From<RangeFrom<i32>> for Places {
    fn from(range: RangeFrom<i32>) -> Places {
        Places { x1: range.start, ..Places::ALL }
    }
}

impl From<RangeToInclusive<i32>> for Places {
    fn from(range: RangeToInclusive<i32>) -> Places {
        Places { x2: range.end, ..Places::ALL }
    }
}

impl From<RangeFull> for Places {
    fn from(_: RangeFull) -> Places {
        Places::ALL
    }
}

/// [`Places`], and the lowest rank.
#[repr(C)]
#[derive(Clone, Copy, Debug, PartialEq, Eq, Hash)]
pub struct Range {
    /// The first place.
    pub x1: i32,
    /// The last place.
    pub x2: i32,
    /// The lowest rank.
    pub y: i32,
}

impl Range {
    /// All places and all ranks.
    pub const ALL: Range = Range { x1: i32::MIN, x2: i32::MAX, y: i32::MIN };

    /// The places, and the lowest rank.
    ///
    /// ```
    /// use spot_table::Range;
    /// assert_eq!(Range::new(0..=240, 5), Range { x1: 0, x2: 240, y: 5 });
    /// ```
    pub fn new(places: impl Into<Places>, y: i32) -> Range {
        let Places { x1, x2 } = places.into();
        Range { x1, x2, y }
    }
}

/// The first n spots of an output, as Report and Top write them; none where it has under 12 · n bytes.
///
/// ```
/// use spot_table::{spots, Spot};
/// let output = [0, 0, 0, 240, 255, 255, 255, 255, 0, 0, 0, 2, 99];
/// let all: Vec<_> = spots(&output, 1).unwrap().collect();
/// assert_eq!(all, [Spot { place: 240, rank: -1, track: 2 }]);
/// assert!(spots(&output, 2).is_none());
/// ```
pub fn spots(output: &[u8], n: usize) -> Option<Spots<'_>> {
    Some(Spots { bytes: output.get(..SPOT.checked_mul(n)?)? })
}

/// The spots of an output, from the first to the last or from the back.
#[derive(Clone)]
pub struct Spots<'a> {
    bytes: &'a [u8],
}

impl<'a> Spots<'a> {
    /// Those that a call has written.
    pub(crate) fn first(output: &'a [u8], n: u32) -> Spots<'a> {
        Spots { bytes: &output[..SPOT * n as usize] }
    }

    /// The bytes of the spots that are left, 12 each.
    pub fn bytes(&self) -> &'a [u8] {
        self.bytes
    }
}

impl Iterator for Spots<'_> {
    type Item = Spot;

    fn next(&mut self) -> Option<Spot> {
        let (first, rest) = self.bytes.split_first_chunk()?;
        self.bytes = rest;
        Some(Spot::of(first))
    }

    fn size_hint(&self) -> (usize, Option<usize>) {
        (self.bytes.len() / SPOT, Some(self.bytes.len() / SPOT))
    }
}

impl DoubleEndedIterator for Spots<'_> {
    fn next_back(&mut self) -> Option<Spot> {
        let (rest, last) = self.bytes.split_last_chunk()?;
        self.bytes = rest;
        Some(Spot::of(last))
    }
}

impl ExactSizeIterator for Spots<'_> {}
impl FusedIterator for Spots<'_> {}

impl fmt::Debug for Spots<'_> {
    fn fmt(&self, f: &mut fmt::Formatter<'_>) -> fmt::Result {
        f.debug_list().entries(self.clone()).finish()
    }
}

/// The spots of each range of an output, as Report of many ranges writes them: one item for each count. None where the output has under 12 bytes for each spot that is counted.
pub fn reports<'a>(output: &'a [u8], counts: &'a [u32]) -> Option<Reports<'a>> {
    Some(Reports { spots: spots(output, total(counts)?)?, counts })
}

fn total(counts: &[u32]) -> Option<usize> {
    counts.iter().try_fold(0, |sum: usize, n| sum.checked_add(*n as usize))
}

/// The spots of each range, from the first range to the last or from the back.
#[derive(Clone)]
pub struct Reports<'a> {
    spots: Spots<'a>,
    counts: &'a [u32],
}

impl<'a> Reports<'a> {
    /// Those that a call has written.
    pub(crate) fn first(output: &'a [u8], n: u32, counts: &'a [u32]) -> Reports<'a> {
        Reports { spots: Spots::first(output, n), counts }
    }

    /// The spots of all ranges that are left, one range's behind the other's.
    pub fn all(&self) -> Spots<'a> {
        self.spots.clone()
    }

    /// The number of spots of each range that is left.
    pub fn counts(&self) -> &'a [u32] {
        self.counts
    }
}

impl<'a> Iterator for Reports<'a> {
    type Item = Spots<'a>;

    fn next(&mut self) -> Option<Spots<'a>> {
        let (first, rest) = self.counts.split_first()?;
        let (own, others) = self.spots.bytes.split_at(SPOT * *first as usize);
        *self = Reports { spots: Spots { bytes: others }, counts: rest };
        Some(Spots { bytes: own })
    }

    fn size_hint(&self) -> (usize, Option<usize>) {
        (self.counts.len(), Some(self.counts.len()))
    }
}

impl<'a> DoubleEndedIterator for Reports<'a> {
    fn next_back(&mut self) -> Option<Spots<'a>> {
        let (last, rest) = self.counts.split_last()?;
        let (others, own) = self.spots.bytes.split_at(self.spots.bytes.len() - SPOT * *last as usize);
        *self = Reports { spots: Spots { bytes: others }, counts: rest };
        Some(Spots { bytes: own })
    }
}

impl ExactSizeIterator for Reports<'_> {}
impl FusedIterator for Reports<'_> {}

impl fmt::Debug for Reports<'_> {
    fn fmt(&self, f: &mut fmt::Formatter<'_>) -> fmt::Result {
        f.debug_list().entries(self.clone()).finish()
    }
}

/// What a Top within an allowance gives: the first of Top's spots, those that are certain, and how high the rest can be.
#[derive(Clone, Debug)]
#[non_exhaustive]
pub struct Within<'a> {
    /// The spots that are certain, in Top's order.
    pub spots: Spots<'a>,
    /// No other live spot of the range has a rank above this one.
    pub ceiling: i32,
}

/// The blocks that a map marks, rising: block n is the bit of value 2^(n mod 8) in byte n div 8.
///
/// ```
/// let map = [0b1000_0001, 0, 0b10];
/// assert_eq!(spot_table::marked(&map).collect::<Vec<_>>(), [0, 7, 17]);
/// ```
pub fn marked(map: &[u8]) -> Blocks<'_> {
    Blocks { map, at: 0, bits: map.first().copied().unwrap_or(0) }
}

/// The blocks that a map marks.
#[derive(Clone, Debug)]
pub struct Blocks<'a> {
    map: &'a [u8],
    at: usize,
    // of byte `at`, those not yet given
    bits: u8,
}

impl Iterator for Blocks<'_> {
    type Item = usize;

    fn next(&mut self) -> Option<usize> {
        while self.bits == 0 {
            self.at += 1;
            self.bits = *self.map.get(self.at)?;
        }
        let bit = self.bits.trailing_zeros() as usize;
        self.bits &= self.bits - 1;
        Some(8 * self.at + bit)
    }
}

/// The map in which Report and Top mark the blocks that they read.
#[derive(Clone, Debug, PartialEq, Eq)]
pub struct ReadMap([u8; MAP]);

impl ReadMap {
    /// A map that marks nothing.
    pub const fn new() -> ReadMap {
        ReadMap([0; MAP])
    }

    /// The marked blocks, rising.
    pub fn blocks(&self) -> Blocks<'_> {
        marked(&self.0)
    }

    /// Whether the block is marked.
    pub fn marks(&self, block: usize) -> bool {
        self.0.get(block / 8).is_some_and(|byte| byte >> (block % 8) & 1 == 1)
    }

    /// How many blocks are marked.
    pub fn ones(&self) -> u32 {
        blocks_read(&self.0).detail
    }

    /// The 512 bytes.
    pub fn bytes(&self) -> &[u8; MAP] {
        &self.0
    }

    /// The 512 bytes, to be lent to a call.
    pub fn bytes_mut(&mut self) -> &mut [u8; MAP] {
        &mut self.0
    }
}

impl Default for ReadMap {
    fn default() -> ReadMap {
        ReadMap::new()
    }
}
