use crate::{capacity, raw, Message, MessageRefusal, Places, Range, ReadMap, Refusal, Reports, Spot, Spots, Within};

/// A table in bytes that are owned or borrowed: `Vec<u8>`, `&mut [u8]`, or `&[u8]` for reading alone.
///
/// Nothing is kept beside the bytes, so a table may be wrapped anew for each call. What is asked comes first, and then the memory lent for it. Every call refuses a
/// [`TableLength`](Refusal::TableLength) that is not 9 to 4,096 whole blocks, and bytes that are [`Broken`](Refusal::Broken) where it reads them.
///
/// ```
/// use spot_table::{Refusal, Spot, Table};
///
/// let (mut card, mut work) = ([0; 9 * 2048], [0; 9 * 2048]);
/// let mut table = Table::format(&mut card[..])?;
/// for place in 0..128 {
///     table.add(Spot { place, rank: 1, track: 7 }, &mut work)?;
/// }
/// let one_more = Spot { place: 128, rank: 1, track: 7 };
/// assert_eq!(table.add(one_more, &mut work), Err(Refusal::Full));
///
/// let reading = Table::new(&card);
/// assert_eq!((reading.count(), reading.check()), (Ok(128), Ok(true)));
/// # Ok::<(), Refusal>(())
/// ```
#[derive(Clone, Debug)]
pub struct Table<B> {
    bytes: B,
}

impl<B> Table<B> {
    /// The table in these bytes, whatever they hold.
    pub const fn new(bytes: B) -> Table<B> {
        Table { bytes }
    }

    /// The bytes again.
    pub fn into_bytes(self) -> B {
        self.bytes
    }
}

impl<B: AsRef<[u8]>> Table<B> {
    /// The bytes.
    pub fn bytes(&self) -> &[u8] {
        self.bytes.as_ref()
    }

    /// The most live spots that it can have.
    pub fn capacity(&self) -> usize {
        capacity(self.bytes().len())
    }

    /// The number of live spots.
    ///
    /// # Errors
    ///
    /// [`TableLength`](Refusal::TableLength), [`Broken`](Refusal::Broken).
    pub fn count(&self) -> Result<u32, Refusal> {
        raw::count(self.bytes()).result()
    }

    /// Whether the table is sound.
    ///
    /// # Errors
    ///
    /// [`TableLength`](Refusal::TableLength).
    pub fn check(&self) -> Result<bool, Refusal> {
        raw::check(self.bytes()).result().map(|yes| yes == 1)
    }

    /// All live spots with x1 ≤ place ≤ x2 and rank ≥ y, rising in place order. The output takes 12 bytes each; the map marks the blocks read. If x1 is greater than x2, the range
    /// runs on past the door: the spots of all places from x1 up come first, followed by those of all places up to x2.
    ///
    /// # Errors
    ///
    /// [`TableLength`](Refusal::TableLength), [`Broken`](Refusal::Broken); [`Output`](Refusal::Output) for more spots than the output has room for, with their number.
    ///
    /// ```
    /// use spot_table::{Range, ReadMap, Refusal, Spot, Table};
    /// let mut work = vec![0; 9 * 2048];
    /// let mut table = Table::format(vec![0; 9 * 2048])?;
    /// table.add(Spot { place: 0, rank: 7, track: 1 }, &mut work)?;
    /// table.add(Spot { place: 240, rank: 7, track: 2 }, &mut work)?;
    /// let mut map = ReadMap::new();
    /// let refused = table.report(Range::new(0..=240, 7), &mut [0; 12], &mut map).unwrap_err();
    /// assert_eq!(refused, Refusal::Output { spots: 2 });
    ///
    /// let mut output = [0; 24];
    /// let past_the_door = table.report(Range { x1: 240, x2: 0, y: 7 }, &mut output, &mut map)?;
    /// assert_eq!(past_the_door.map(|s| s.place).collect::<Vec<_>>(), [240, 0]);
    /// # Ok::<(), Refusal>(())
    /// ```
    pub fn report<'o>(&self, range: Range, output: &'o mut [u8], map: &mut ReadMap) -> Result<Spots<'o>, Refusal> {
        let n = raw::report(self.bytes(), range, output, map.bytes_mut()).result()?;
        Ok(Spots::first(output, n))
    }

    /// Up to 64 reports in one call: for each range, in the order handed in, the spots that `report` gives. The output takes 12 bytes for each spot of each range, the counts
    /// are as many as the ranges; the map marks block 0 and the blocks that any of the reports reads.
    ///
    /// # Errors
    ///
    /// Those of `report`; [`LentLength`](Refusal::LentLength) where there are not as many counts as ranges, [`TooManyRanges`](Refusal::TooManyRanges) for over 64.
    ///
    /// ```
    /// use spot_table::{Range, ReadMap, Refusal, Spot, Table};
    /// let mut work = vec![0; 9 * 2048];
    /// let mut table = Table::format(vec![0; 9 * 2048])?;
    /// for place in [0, 120, 240] {
    ///     table.add(Spot { place, rank: 7, track: 1 }, &mut work)?;
    /// }
    /// let ranges = [Range::new(100..=300, 5), Range { x1: 200, x2: 50, y: 5 }];
    /// let (mut counts, mut output, mut map) = ([0; 2], [0; 4 * 12], ReadMap::new());
    /// let reports = table.report_many(&ranges, &mut counts, &mut output, &mut map)?;
    /// let places: Vec<Vec<i32>> = reports.map(|spots| spots.map(|s| s.place).collect()).collect();
    /// assert_eq!(places, [[120, 240], [240, 0]]);
    ///
    /// let refused = table.report_many(&ranges, &mut counts, &mut [0; 3 * 12], &mut map).unwrap_err();
    /// assert_eq!(refused, Refusal::Output { spots: 4 });
    /// # Ok::<(), Refusal>(())
    /// ```
    pub fn report_many<'o>(
        &self,
        ranges: &[Range],
        counts: &'o mut [u32],
        output: &'o mut [u8],
        map: &mut ReadMap,
    ) -> Result<Reports<'o>, Refusal> {
        let n = raw::report_many(self.bytes(), ranges, counts, output, map.bytes_mut()).result()?;
        Ok(Reports::first(output, n, counts))
    }

    /// Of the live spots with x1 ≤ place ≤ x2 the k of highest rank, the highest first; of equal ranks the lower place comes first, and stays where k cuts between them. All, if
    /// there are fewer. If x1 is greater than x2, the range runs on past the door as for `report`; the order is the same. Output as for `report`; the map marks the blocks that a
    /// report from the rank of the last of the k spots marks (from the least rank, if there are fewer), and block 0 alone for k = 0.
    ///
    /// # Errors
    ///
    /// Those of `report`.
    ///
    /// ```
    /// use spot_table::{ReadMap, Spot, Table};
    /// let mut work = vec![0; 9 * 2048];
    /// let mut table = Table::format(vec![0; 9 * 2048])?;
    /// table.add(Spot { place: 0, rank: 7, track: 1 }, &mut work)?;
    /// table.add(Spot { place: 240, rank: 7, track: 2 }, &mut work)?;
    /// let mut output = [0; 12];
    /// let best = table.top(0..=240, 1, &mut output, &mut ReadMap::new())?.next();
    /// assert_eq!(best.map(|s| s.place), Some(0));
    /// # Ok::<(), spot_table::Refusal>(())
    /// ```
    pub fn top<'o>(&self, places: impl Into<Places>, k: u32, output: &'o mut [u8], map: &mut ReadMap) -> Result<Spots<'o>, Refusal> {
        let n = raw::top(self.bytes(), places.into(), k, output, map.bytes_mut()).result()?;
        Ok(Spots::first(output, n))
    }

    /// `top` with a limit on what is read: block 0 and at most so many node blocks, the root first, then always the unread child in range whose entry shows the highest rank. It
    /// gives the first of Top's spots, those that are certain by then, and the ceiling: no other live spot of the range has a rank above it (-2147483648, if nothing else is left). A
    /// larger allowance never gives fewer spots nor a higher ceiling; one of as many node blocks as `top` reads gives what `top` gives. With an allowance or a k of 0 block 0 alone
    /// is read, no spot is given, and the ceiling is 2147483647. Output as for `report`; the map marks the blocks read.
    ///
    /// # Errors
    ///
    /// Those of `report`.
    ///
    /// ```
    /// use spot_table::{ReadMap, Spot, Table};
    /// let mut work = vec![0; 9 * 2048];
    /// let mut table = Table::format(vec![0; 9 * 2048])?;
    /// for (place, rank) in [(0, 7), (120, 3), (240, 5)] {
    ///     table.add(Spot { place, rank, track: 1 }, &mut work)?;
    /// }
    /// let (mut output, mut map) = ([0; 3 * 12], ReadMap::new());
    /// let best = table.top_within(0..=240, 2, 1, &mut output, &mut map)?;
    /// assert_eq!(best.spots.map(|s| s.rank).collect::<Vec<_>>(), [7, 5]);
    /// assert_eq!((best.ceiling, map.blocks().collect::<Vec<_>>()), (3, vec![0, 1]));
    ///
    /// let none = table.top_within(0..=240, 2, 0, &mut output, &mut map)?;
    /// assert_eq!((none.spots.len(), none.ceiling, map.ones()), (0, i32::MAX, 1));
    /// # Ok::<(), spot_table::Refusal>(())
    /// ```
    pub fn top_within<'o>(
        &self,
        places: impl Into<Places>,
        k: u32,
        allowance: u32,
        output: &'o mut [u8],
        map: &mut ReadMap,
    ) -> Result<Within<'o>, Refusal> {
        let (answer, ceiling) = raw::top_within(self.bytes(), places.into(), k, allowance, output, map.bytes_mut());
        Ok(Within { spots: Spots::first(output, answer.result()?), ceiling })
    }
}

impl<B: AsMut<[u8]>> Table<B> {
    /// The empty table in these bytes. Where they are refused they are dropped; borrowed ones stay as they were.
    ///
    /// # Errors
    ///
    /// [`TableLength`](Refusal::TableLength).
    pub fn format(mut bytes: B) -> Result<Table<B>, Refusal> {
        raw::format(bytes.as_mut()).result()?;
        Ok(Table { bytes })
    }

    /// Puts the spot in; one of the same place and rank is replaced. The work area is at least as long as the table.
    ///
    /// # Errors
    ///
    /// [`TableLength`](Refusal::TableLength), [`LentLength`](Refusal::LentLength) for a shorter work area, [`PlaceOutside`](Refusal::PlaceOutside) for a place outside the limits,
    /// [`Broken`](Refusal::Broken), [`Full`](Refusal::Full).
    ///
    /// ```
    /// use spot_table::{Refusal, Spot, Table, HIGHEST_PLACE};
    /// let mut work = vec![0; 9 * 2048];
    /// let mut table = Table::format(vec![0; 9 * 2048])?;
    /// let beyond = Spot { place: HIGHEST_PLACE + 1, rank: 7, track: 1 };
    /// assert_eq!(table.add(beyond, &mut work), Err(Refusal::PlaceOutside));
    /// # Ok::<(), Refusal>(())
    /// ```
    pub fn add(&mut self, spot: Spot, work: &mut [u8]) -> Result<(), Refusal> {
        raw::add(self.bytes.as_mut(), spot, work).result().map(drop)
    }

    /// Takes out the spot of this place and rank, if there is one; a place outside the limits is refused as for `add`. The work area is at least as long as the table.
    ///
    /// # Errors
    ///
    /// Those of `add`, but [`Full`](Refusal::Full).
    pub fn withdraw(&mut self, place: i32, rank: i32, work: &mut [u8]) -> Result<(), Refusal> {
        raw::withdraw(self.bytes.as_mut(), place, rank, work).result().map(drop)
    }

    /// Applies a message: its changes one after another, or, if any would be turned down, none. The refusal says which. The work area is at least as long as the table.
    ///
    /// # Errors
    ///
    /// Those of `add`, with the position of the first change that would be refused; [`NotAMessage`](Refusal::NotAMessage) where the bytes are no message.
    ///
    /// ```
    /// use spot_table::{Change, Message, MessageRefusal, Refusal, Spot, Table};
    /// let mut work = vec![0; 9 * 2048];
    /// let mut table = Table::format(vec![0; 9 * 2048]).unwrap();
    /// let changes: Vec<_> = (0..129).map(|place| Change::Add(Spot { place, rank: 1, track: 7 })).collect();
    /// let mut lent = vec![0; 2000];
    /// let refused = table.apply(&Message::write(&changes, &mut lent)?, &mut work).unwrap_err();
    /// assert_eq!((refused.refusal, refused.position), (Refusal::Full, Some(128)));
    /// assert_eq!(table.count(), Ok(0));
    ///
    /// table.apply(&Message::write(&changes[..128], &mut lent)?, &mut work)?;
    /// assert_eq!(table.count(), Ok(128));
    /// # Ok::<(), MessageRefusal>(())
    /// ```
    pub fn apply<M: AsRef<[u8]>>(&mut self, message: &Message<M>, work: &mut [u8]) -> Result<(), MessageRefusal> {
        message.apply(self.bytes.as_mut(), work)
    }

    /// Lays the live spots out anew: no change waits then. The work area is at least as long as the table.
    ///
    /// # Errors
    ///
    /// [`TableLength`](Refusal::TableLength), [`LentLength`](Refusal::LentLength) for a shorter work area, [`Broken`](Refusal::Broken).
    pub fn rebuild(&mut self, work: &mut [u8]) -> Result<(), Refusal> {
        raw::rebuild(self.bytes.as_mut(), work).result().map(drop)
    }
}
