use crate::{raw, Answer, Refusal, Spot, CHANGE, MOST_CHANGES, SPOT};
use core::fmt;
use core::iter::FusedIterator;

/// A change to a table: a spot that is put in, or the place and rank of one that is taken out. A later version may have other kinds: a match needs a wildcard.
#[derive(Clone, Copy, Debug, PartialEq, Eq, Hash)]
#[non_exhaustive]
pub enum Change {
    /// As [`Table::add`](crate::Table::add): one of the same place and rank is replaced.
    Add(Spot),
    /// As [`Table::withdraw`](crate::Table::withdraw): where there is no such spot, nothing changes.
    Withdraw {
        /// Its place.
        place: i32,
        /// Its rank.
        rank: i32,
    },
}

impl Change {
    /// The change in the first 13 bytes: a kind, 1 or 2, and the spot, of which a withdrawal has zeros for the track. None where they hold no change, or are fewer.
    pub fn read(bytes: &[u8]) -> Option<Change> {
        let (kind, rest) = bytes.split_first()?;
        let spot = Spot::read(rest)?;
        match (*kind, spot.track) {
            (1, _) => Some(Change::Add(spot)),
            (2, 0) => Some(Change::Withdraw { place: spot.place, rank: spot.rank }),
            _ => None,
        }
    }

    /// The 13 bytes from which `read` gives this change.
    ///
    /// ```
    /// use spot_table::Change;
    /// let change = Change::Withdraw { place: 240, rank: -1 };
    /// assert_eq!(change.to_bytes(), [2, 0, 0, 0, 240, 255, 255, 255, 255, 0, 0, 0, 0]);
    /// assert_eq!(Change::read(&change.to_bytes()), Some(change));
    /// ```
    pub fn to_bytes(self) -> [u8; CHANGE] {
        let (kind, spot) = match self {
            Change::Add(spot) => (1, spot),
            Change::Withdraw { place, rank } => (2, Spot { place, rank, track: 0 }),
        };
        let mut bytes = [kind; CHANGE];
        bytes[1..].copy_from_slice(&spot.to_bytes());
        bytes
    }

    /// Its place and rank.
    pub const fn identity(self) -> (i32, i32) {
        match self {
            Change::Add(Spot { place, rank, .. }) | Change::Withdraw { place, rank } => (place, rank),
        }
    }
}

/// Why a message or a list of changes was turned down, and by which change. Every lent byte is as it was, but for a work area after [`Broken`](Refusal::Broken).
#[derive(Clone, Copy, Debug, PartialEq, Eq, Hash)]
#[non_exhaustive]
pub struct MessageRefusal {
    /// Why.
    pub refusal: Refusal,
    /// The position, from 0, of the first change that would be turned down ([`Full`](Refusal::Full)) or whose place lies outside the limits
    /// ([`PlaceOutside`](Refusal::PlaceOutside)); none with other refusals, which no single change is to blame for.
    pub position: Option<usize>,
}

impl MessageRefusal {
    pub(crate) fn of(answer: Answer) -> Result<(), MessageRefusal> {
        let Err(refusal) = answer.result() else { return Ok(()) };
        let by_change = matches!(refusal, Refusal::Full | Refusal::PlaceOutside);
        Err(MessageRefusal { refusal, position: by_change.then_some(answer.detail as usize) })
    }
}

/// Without the position.
impl From<MessageRefusal> for Refusal {
    fn from(refused: MessageRefusal) -> Refusal {
        refused.refusal
    }
}

impl fmt::Display for MessageRefusal {
    fn fmt(&self, f: &mut fmt::Formatter<'_>) -> fmt::Result {
        match self.position {
            Some(n) => write!(f, "the change at position {n}, from 0: {}", self.refusal),
            None => self.refusal.fmt(f),
        }
    }
}

impl core::error::Error for MessageRefusal {}

/// A message, in bytes that are owned or borrowed: up to 4,096 changes to a table, as they go over the air.
///
/// It carries no sender, no seal and no place among other messages: bytes that were changed on the way may be a message still, and one that comes late or twice is applied like any
/// other. Whoever sends messages over the air signs them on the way and keeps their order.
///
/// ```
/// use spot_table::{Change, Message, MessageRefusal, Spot, Table, BLOCK, CHANGE, MESSAGE};
///
/// let changes = [
///     Change::Add(Spot { place: 0, rank: 5, track: 1 }),
///     Change::Add(Spot { place: 240, rank: 7, track: 2 }),
///     Change::Withdraw { place: 0, rank: 5 },
/// ];
/// let mut lent = [0; MESSAGE];
/// let message = Message::write(&changes, &mut lent)?;
/// assert_eq!(message.bytes().len(), 7 + 13 + 13 + 9);
///
/// let mut list = [0; 3 * CHANGE];
/// assert_eq!(message.read(&mut list)?.collect::<Vec<_>>(), changes);
///
/// let (mut card, mut work) = ([0; 9 * BLOCK], [0; 9 * BLOCK]);
/// let mut table = Table::format(&mut card[..]).unwrap();
/// table.apply(&message, &mut work)?;
/// assert_eq!(table.count(), Ok(1));
/// # Ok::<(), MessageRefusal>(())
/// ```
#[derive(Clone, Copy, Debug)]
pub struct Message<B> {
    bytes: B,
}

/// The length of the message at the front of these bytes, as its first four say it: at least 7, and never more than there are. None where no whole message stands there.
///
/// It parts messages that stand one behind the other. What was received as one message is taken as it came: it is refused where its own length differs.
///
/// ```
/// use spot_table::message_len;
/// assert_eq!(message_len(&[0, 0, 0, 7, 1, 0, 0, 99]), Some(7));
/// assert_eq!(message_len(&[0, 0, 0, 8, 1, 0, 0]), None);
/// assert_eq!(message_len(&[0, 0, 0]), None);
/// ```
pub fn message_len(bytes: &[u8]) -> Option<usize> {
    let said = u32::from_be_bytes(*bytes.first_chunk()?) as usize;
    (MESSAGE_HEAD..=bytes.len()).contains(&said).then_some(said)
}

/// Length, version and number of changes.
const MESSAGE_HEAD: usize = 7;

impl<B> Message<B> {
    /// The message in these bytes, whatever they hold. They are the message alone, without any that lie behind it.
    pub const fn new(bytes: B) -> Message<B> {
        Message { bytes }
    }

    /// The bytes again.
    pub fn into_bytes(self) -> B {
        self.bytes
    }
}

impl<'a> Message<&'a [u8]> {
    /// Writes the message of up to 4,096 changes at the front of the lent bytes; [`MESSAGE`](crate::MESSAGE) of them always suffice. Those behind it stay as they were; after a refusal all
    /// do. The list of changes takes 53 kB of stack here.
    ///
    /// # Errors
    ///
    /// [`NotAMessage`](Refusal::NotAMessage) for over 4,096 changes, [`LentLength`](Refusal::LentLength) where the message finds no room, [`PlaceOutside`](Refusal::PlaceOutside) with the
    /// position of the first change whose place lies outside the limits.
    ///
    /// ```
    /// use spot_table::{Change, Message, Refusal, HIGHEST_PLACE, MESSAGE};
    /// let change = Change::Withdraw { place: 0, rank: 5 };
    /// let mut lent = [0; MESSAGE];
    /// assert_eq!(Message::write(&[change], &mut lent[..15]).unwrap_err().refusal, Refusal::LentLength);
    /// assert_eq!(Message::write(&[change; 4097], &mut lent).unwrap_err().refusal, Refusal::NotAMessage);
    /// let beyond = Change::Withdraw { place: HIGHEST_PLACE + 1, rank: 5 };
    /// let refused = Message::write(&[change, beyond], &mut lent).unwrap_err();
    /// assert_eq!((refused.refusal, refused.position), (Refusal::PlaceOutside, Some(1)));
    /// ```
    pub fn write(changes: &[Change], lent: &'a mut [u8]) -> Result<Message<&'a [u8]>, MessageRefusal> {
        // one change more than a message can have is enough for its refusal
        let mut list = [0; CHANGE * (MOST_CHANGES + 1)];
        let n = changes.len().min(MOST_CHANGES + 1);
        for (c, row) in changes.iter().zip(list.chunks_exact_mut(CHANGE)) {
            row.copy_from_slice(&c.to_bytes());
        }
        MessageRefusal::of(raw::write_message(&list[..CHANGE * n], lent))?;
        let len = message_len(lent).unwrap_or(0);
        Ok(Message { bytes: &lent[..len] })
    }
}

impl<B: AsRef<[u8]>> Message<B> {
    /// The bytes.
    pub fn bytes(&self) -> &[u8] {
        self.bytes.as_ref()
    }

    /// The number of changes that the message says it has; that many are in it where `read` accepts it. None of under 7 bytes.
    pub fn said_changes(&self) -> Option<usize> {
        let head: &[u8; MESSAGE_HEAD] = self.bytes().first_chunk()?;
        Some(usize::from(u16::from_be_bytes([head[5], head[6]])))
    }

    /// The changes, in their order. The list takes 13 bytes for each; what lies behind them stays as it was.
    ///
    /// # Errors
    ///
    /// [`NotAMessage`](Refusal::NotAMessage) where the bytes are no message, [`LentLength`](Refusal::LentLength) where the changes find no room in the list,
    /// [`PlaceOutside`](Refusal::PlaceOutside) with the position of the first change whose place lies outside the limits.
    pub fn read<'o>(&self, list: &'o mut [u8]) -> Result<Changes<'o>, MessageRefusal> {
        MessageRefusal::of(raw::read_message(self.bytes(), list))?;
        Ok(Changes { bytes: &list[..CHANGE * self.said_changes().unwrap_or(0)] })
    }

    pub(crate) fn apply(&self, table: &mut [u8], work: &mut [u8]) -> Result<(), MessageRefusal> {
        MessageRefusal::of(raw::apply(table, self.bytes(), work))
    }
}

/// The first n changes of a list, as [`read_message`](crate::read_message) writes them; none where it has under 13 · n bytes or something among them is no change.
///
/// ```
/// use spot_table::{changes, Change};
/// let list = [2, 0, 0, 0, 240, 0, 0, 0, 7, 0, 0, 0, 0, 99];
/// assert_eq!(changes(&list, 1).unwrap().collect::<Vec<_>>(), [Change::Withdraw { place: 240, rank: 7 }]);
/// assert!(changes(&list, 2).is_none());
/// assert!(changes(&[0; 13], 1).is_none());
/// ```
pub fn changes(list: &[u8], n: usize) -> Option<Changes<'_>> {
    let bytes = list.get(..CHANGE.checked_mul(n)?)?;
    bytes.chunks_exact(CHANGE).all(|row| Change::read(row).is_some()).then_some(Changes { bytes })
}

/// The changes of a list, from the first to the last.
#[derive(Clone)]
pub struct Changes<'a> {
    bytes: &'a [u8],
}

impl Iterator for Changes<'_> {
    type Item = Change;

    fn next(&mut self) -> Option<Change> {
        let (first, rest) = self.bytes.split_at_checked(CHANGE)?;
        self.bytes = rest;
        Change::read(first)
    }

    fn size_hint(&self) -> (usize, Option<usize>) {
        (self.bytes.len() / CHANGE, Some(self.bytes.len() / CHANGE))
    }
}

impl ExactSizeIterator for Changes<'_> {}
impl FusedIterator for Changes<'_> {}

impl fmt::Debug for Changes<'_> {
    fn fmt(&self, f: &mut fmt::Formatter<'_>) -> fmt::Result {
        f.debug_list().entries(self.clone()).finish()
    }
}

const _: () = assert!(CHANGE == 1 + SPOT);
