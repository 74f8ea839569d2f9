use crate::{raw, Range, ReadMap, Refusal, Spot, Spots, BLOCK, SPOT, TOUR_SPOTS};

/// A pressed tour in bytes that are owned or borrowed: a read-only table of up to 512 spots in 1 to 16 blocks, for a show that is hung once.
///
/// ```
/// use spot_table::{Places, Range, ReadMap, Refusal, Spot, Tour, TOUR};
///
/// let spots = [(0, 5), (240, 7), (600, 3)].map(|(place, rank)| Spot { place, rank, track: 1 });
/// let mut lent = [0; TOUR];
/// let tour = Tour::press(&spots, &mut lent)?;
/// assert_eq!(tour.bytes().len(), 2 * 2048);
///
/// let (mut output, mut map) = ([0; 3 * 12], ReadMap::new());
/// let found = tour.report(Range::new(100..=600, 4), &mut output, &mut map)?;
/// assert_eq!(found.map(|s| s.place).collect::<Vec<_>>(), [240]);
/// assert_eq!(map.blocks().collect::<Vec<_>>(), [0, 1]);
///
/// let copy = Tour::new(tour.bytes().to_vec());
/// let past_the_door = Range::new(Places { x1: 600, x2: 0 }, 0);
/// assert_eq!(copy.report(past_the_door, &mut output, &mut map)?.map(|s| s.place).collect::<Vec<_>>(), [600, 0]);
/// # Ok::<(), Refusal>(())
/// ```
#[derive(Clone, Copy, Debug)]
pub struct Tour<B> {
    bytes: B,
}

/// The length of the tour at the front of these bytes, as its first four say it: whole blocks, at least one, and never more than there are. None where no whole tour stands there.
///
/// ```
/// use spot_table::{tour_len, Tour, TOUR};
/// let mut lent = [0; TOUR];
/// Tour::press(&[], &mut lent)?;
/// assert_eq!(tour_len(&lent), Some(2048));
/// assert_eq!(tour_len(&lent[..2047]), None);
/// # Ok::<(), spot_table::Refusal>(())
/// ```
pub fn tour_len(bytes: &[u8]) -> Option<usize> {
    let said = u32::from_be_bytes(*bytes.first_chunk()?) as usize;
    ((1..=bytes.len()).contains(&said) && said % BLOCK == 0).then_some(said)
}

impl<B> Tour<B> {
    /// The tour in these bytes, whatever they hold. They are the tour alone, without any that were lent behind it.
    pub const fn new(bytes: B) -> Tour<B> {
        Tour { bytes }
    }

    /// The bytes again.
    pub fn into_bytes(self) -> B {
        self.bytes
    }
}

impl<'a> Tour<&'a [u8]> {
    /// Presses up to 512 spots, strictly rising by place, then by rank, at the front of the lent bytes, at least [`TOUR`](crate::TOUR) of them. Those behind the tour stay as they
    /// were; after a refusal all do.
    ///
    /// # Errors
    ///
    /// [`LentLength`](Refusal::LentLength) for fewer bytes, [`NotPressable`](Refusal::NotPressable) for over 512 spots or others than strictly rising ones,
    /// [`PlaceOutside`](Refusal::PlaceOutside) where a place lies outside the limits.
    ///
    /// ```
    /// use spot_table::{Refusal, Spot, Tour, HIGHEST_PLACE, TOUR};
    /// let spot = Spot { place: 0, rank: 5, track: 1 };
    /// let mut lent = [0; TOUR];
    /// assert_eq!(Tour::press(&[spot], &mut lent[1..]).unwrap_err(), Refusal::LentLength);
    /// assert_eq!(Tour::press(&[spot, spot], &mut lent).unwrap_err(), Refusal::NotPressable);
    /// let beyond = Spot { place: HIGHEST_PLACE + 1, ..spot };
    /// assert_eq!(Tour::press(&[spot, beyond], &mut lent).unwrap_err(), Refusal::PlaceOutside);
    /// ```
    pub fn press(spots: &[Spot], lent: &'a mut [u8]) -> Result<Tour<&'a [u8]>, Refusal> {
        // one spot more than a tour can have is enough for its refusal
        let mut bytes = [0; SPOT * (TOUR_SPOTS + 1)];
        let n = spots.len().min(TOUR_SPOTS + 1);
        for (s, part) in spots.iter().zip(bytes.chunks_exact_mut(SPOT)) {
            part.copy_from_slice(&s.to_bytes());
        }
        raw::press(&bytes[..SPOT * n], lent).result()?;
        let len = tour_len(lent).unwrap_or(0);
        Ok(Tour { bytes: &lent[..len] })
    }
}

impl<B: AsRef<[u8]>> Tour<B> {
    /// The bytes.
    pub fn bytes(&self) -> &[u8] {
        self.bytes.as_ref()
    }

    /// All spots with x1 ≤ place ≤ x2 and rank ≥ y, rising in place order; past the door as [`Table::report`](crate::Table::report) does. The output takes 12 bytes each. The map marks
    /// the blocks read: the catalogue and at most 3 + 2 · (spots div 64) others, past the door 4 + 2 · (spots div 64).
    ///
    /// # Errors
    ///
    /// [`TableLength`](Refusal::TableLength) where the bytes are not 1 to 16 whole blocks, [`Broken`](Refusal::Broken) where the catalogue or a block that is read breaks the layout,
    /// [`Output`](Refusal::Output) for more spots than the output has room for.
    pub fn report<'o>(&self, range: Range, output: &'o mut [u8], map: &mut ReadMap) -> Result<Spots<'o>, Refusal> {
        let n = raw::tour_report(self.bytes(), range, output, map.bytes_mut()).result()?;
        Ok(Spots::first(output, n))
    }
}
