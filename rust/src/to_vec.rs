//! Answers in memory that the call allocates: the feature `alloc`.
use crate::{capacity, raw, Change, Message, MessageRefusal, Places, Range, ReadMap, Refusal, Spot, Spots, Table, Tour};
use crate::{message_len, tour_len, CHANGE, MESSAGE, MOST_RANGES, SPOT, TOUR};
use alloc::{vec, vec::Vec};

/// The room that is tried first, in spots: up to here a report reads its blocks once.
const FIRST: usize = 128;

/// Calls with so much room, and, if there are more spots, again with as much as they take.
fn sized(room: usize, mut call: impl FnMut(&mut [u8]) -> Result<u32, Refusal>) -> Result<Vec<Spot>, Refusal> {
    let mut output = vec![0; SPOT * room];
    let n = match call(&mut output) {
        Err(Refusal::Output { spots }) => {
            output.resize(SPOT.checked_mul(spots as usize).ok_or(Refusal::Output { spots })?, 0);
            call(&mut output)?
        }
        answer => answer?,
    };
    Ok(Spots::first(&output, n).collect())
}

impl<B: AsRef<[u8]>> Table<B> {
    /// [`report`](Table::report) as a list of its own.
    ///
    /// # Errors
    ///
    /// Those of `report`, but [`Output`](Refusal::Output).
    ///
    /// ```
    /// use spot_table::{Range, Refusal, Spot, Table};
    /// let mut work = vec![0; 40 * 2048];
    /// let mut table = Table::format(vec![0; 40 * 2048])?;
    /// for place in 0..500 {
    ///     table.add(Spot { place, rank: 1, track: 7 }, &mut work)?;
    /// }
    /// let found = table.report_to_vec(Range::new(100.., 1))?;
    /// assert_eq!((found.len(), found[0].place), (400, 100));
    /// # Ok::<(), Refusal>(())
    /// ```
    pub fn report_to_vec(&self, range: Range) -> Result<Vec<Spot>, Refusal> {
        sized(FIRST, |output| raw::report(self.bytes(), range, output, ReadMap::new().bytes_mut()).result())
    }

    /// [`report_many`](Table::report_many) as a list for each range.
    ///
    /// # Errors
    ///
    /// Those of `report_many`, but [`Output`](Refusal::Output) and [`LentLength`](Refusal::LentLength).
    pub fn report_many_to_vecs(&self, ranges: &[Range]) -> Result<Vec<Vec<Spot>>, Refusal> {
        let mut counts = vec![0; ranges.len()];
        let call = |output: &mut [u8]| raw::report_many(self.bytes(), ranges, &mut counts, output, ReadMap::new().bytes_mut()).result();
        let room = FIRST * ranges.len().min(MOST_RANGES);
        let mut spots = sized(room, call)?.into_iter();
        Ok(counts.iter().map(|n| spots.by_ref().take(*n as usize).collect()).collect())
    }

    /// [`top`](Table::top) as a list of its own.
    ///
    /// # Errors
    ///
    /// Those of `top`, but [`Output`](Refusal::Output).
    ///
    /// ```
    /// use spot_table::{Spot, Table};
    /// let mut work = vec![0; 9 * 2048];
    /// let mut table = Table::format(vec![0; 9 * 2048])?;
    /// for (place, rank) in [(0, 7), (120, 3), (240, 9)] {
    ///     table.add(Spot { place, rank, track: 1 }, &mut work)?;
    /// }
    /// assert_eq!(table.top_to_vec(..=200, 5)?.iter().map(|s| s.rank).collect::<Vec<_>>(), [7, 3]);
    /// # Ok::<(), spot_table::Refusal>(())
    /// ```
    pub fn top_to_vec(&self, places: impl Into<Places>, k: u32) -> Result<Vec<Spot>, Refusal> {
        let places = places.into();
        sized(self.room(k), |output| raw::top(self.bytes(), places, k, output, ReadMap::new().bytes_mut()).result())
    }

    /// [`top_within`](Table::top_within) as a list of its own, and the ceiling.
    ///
    /// # Errors
    ///
    /// Those of `top_within`, but [`Output`](Refusal::Output).
    pub fn top_within_to_vec(&self, places: impl Into<Places>, k: u32, allowance: u32) -> Result<(Vec<Spot>, i32), Refusal> {
        let (places, mut ceiling) = (places.into(), 0);
        let spots = sized(self.room(k), |output| {
            let (answer, highest) = raw::top_within(self.bytes(), places, k, allowance, output, ReadMap::new().bytes_mut());
            ceiling = highest;
            answer.result()
        })?;
        Ok((spots, ceiling))
    }

    /// For k spots, if they are few, of which a table has no more than its capacity.
    fn room(&self, k: u32) -> usize {
        FIRST.min(k as usize).min(capacity(self.bytes().len()))
    }
}

impl<B: AsRef<[u8]>> Tour<B> {
    /// [`report`](Tour::report) as a list of its own.
    ///
    /// # Errors
    ///
    /// Those of `report`, but [`Output`](Refusal::Output).
    pub fn report_to_vec(&self, range: Range) -> Result<Vec<Spot>, Refusal> {
        sized(FIRST, |output| raw::tour_report(self.bytes(), range, output, ReadMap::new().bytes_mut()).result())
    }
}

impl Tour<Vec<u8>> {
    /// [`press`](Tour::press) into memory of its own.
    ///
    /// # Errors
    ///
    /// Those of `press`, but [`LentLength`](Refusal::LentLength).
    ///
    /// ```
    /// use spot_table::{Range, Spot, Tour};
    /// let spots = [(0, 5), (240, 7)].map(|(place, rank)| Spot { place, rank, track: 1 });
    /// let tour = Tour::press_to_vec(&spots)?;
    /// assert_eq!((tour.bytes().len(), tour.report_to_vec(Range::ALL)?), (2 * 2048, spots.to_vec()));
    /// # Ok::<(), spot_table::Refusal>(())
    /// ```
    pub fn press_to_vec(spots: &[Spot]) -> Result<Tour<Vec<u8>>, Refusal> {
        let list: Vec<u8> = spots.iter().flat_map(|s| s.to_bytes()).collect();
        let mut bytes = vec![0; TOUR];
        raw::press(&list, &mut bytes).result()?;
        bytes.truncate(tour_len(&bytes).unwrap_or(0));
        Ok(Tour::new(bytes))
    }
}

impl Message<Vec<u8>> {
    /// [`write`](Message::write) into memory of its own, without 53 kB of stack.
    ///
    /// # Errors
    ///
    /// Those of `write`, but [`LentLength`](Refusal::LentLength).
    ///
    /// ```
    /// use spot_table::{Change, Message};
    /// let changes = [Change::Withdraw { place: 0, rank: 5 }];
    /// let message = Message::write_to_vec(&changes)?;
    /// assert_eq!((message.bytes().len(), message.read_to_vec()?), (16, changes.to_vec()));
    /// # Ok::<(), spot_table::MessageRefusal>(())
    /// ```
    pub fn write_to_vec(changes: &[Change]) -> Result<Message<Vec<u8>>, MessageRefusal> {
        let list: Vec<u8> = changes.iter().flat_map(|c| c.to_bytes()).collect();
        let mut bytes = vec![0; MESSAGE];
        MessageRefusal::of(raw::write_message(&list, &mut bytes))?;
        bytes.truncate(message_len(&bytes).unwrap_or(0));
        Ok(Message::new(bytes))
    }
}

impl<B: AsRef<[u8]>> Message<B> {
    /// [`read`](Message::read) as a list of its own.
    ///
    /// # Errors
    ///
    /// Those of `read`, but [`LentLength`](Refusal::LentLength).
    pub fn read_to_vec(&self) -> Result<Vec<Change>, MessageRefusal> {
        // a change takes 9 bytes at least in the message, whatever number it says
        let most = self.bytes().len() / 9;
        let mut list = vec![0; CHANGE * self.said_changes().unwrap_or(0).min(most)];
        Ok(self.read(&mut list)?.collect())
    }
}
