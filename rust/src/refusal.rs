use core::fmt;

/// Why a call was turned down. Every lent byte is as it was, but for a work area after [`Broken`](Refusal::Broken): its first table-length bytes are zero then.
///
/// There may be more of them in a later version: a match needs a wildcard.
#[derive(Clone, Copy, Debug, PartialEq, Eq, Hash)]
#[non_exhaustive]
pub enum Refusal {
    /// 1: the table is not a whole number of blocks, or has under 9 or over 4,096; or the tour is not 1 to 16 whole blocks.
    TableLength,
    /// 2: the read map isn't 512 bytes, the work area is shorter than the table, there are not as many counts as ranges, a tour is to be pressed into under
    /// [`TOUR`](crate::TOUR) bytes, or a message or its changes are to be written to fewer bytes than they have; the last is asked after 8.
    LentLength,
    /// 3: block 0, or a node block that was read, breaks a rule that it and the entry leading to it can show; never on a sound table. Of a tour: the catalogue, or a
    /// block that was read, breaks the layout; never on a pressed one.
    Broken,
    /// 4: Add and applying a message only. The table has as many live spots as it holds, and none of this place and rank. Of a message none of the changes is applied then;
    /// [`MessageRefusal`](crate::MessageRefusal) says which of them found the table full.
    Full,
    /// 5: Report, Report of many ranges, Top, Top within an allowance and Report of a tour only. There are more spots than the output has room for.
    Output {
        /// How many there are; 12 bytes are needed for each.
        spots: u32,
    },
    /// 6: Report of many ranges only. There are more than 64 ranges. This is asked after 2 and before 3.
    TooManyRanges,
    /// 7: pressing a tour only. There are more than 512 spots, the last is cut short, or they don't strictly rise by place, then by rank. This is asked after 2 and before 9 and 3.
    NotPressable,
    /// 8: writing, reading and applying a message only. The bytes are no message, or no list of changes: a wrong length, version, kind, zero or number of changes, or over 4,096 of them.
    /// This is asked before 9 and 3, of applying after 2, of writing and reading before 2.
    NotAMessage,
    /// 9: Add, Withdraw, pressing a tour and writing, reading and applying a message only. A place doesn't lie from [`LOWEST_PLACE`](crate::LOWEST_PLACE) to [`HIGHEST_PLACE`](crate::HIGHEST_PLACE). This is asked after 2 and before 3.
    PlaceOutside,
    /// A number that this version of the crate doesn't know: the archive is that of a later one.
    Unknown {
        /// The number.
        number: u32,
        /// What goes with it.
        detail: u32,
    },
}

impl Refusal {
    /// The refusal of this number and detail; none for 0, with which a call is accepted.
    pub const fn new(number: u32, detail: u32) -> Option<Refusal> {
        match number {
            1 => Some(Refusal::TableLength),
            2 => Some(Refusal::LentLength),
            3 => Some(Refusal::Broken),
            4 => Some(Refusal::Full),
            5 => Some(Refusal::Output { spots: detail }),
            6 => Some(Refusal::TooManyRanges),
            7 => Some(Refusal::NotPressable),
            8 => Some(Refusal::NotAMessage),
            9 => Some(Refusal::PlaceOutside),
            0 => None,
            number => Some(Refusal::Unknown { number, detail }),
        }
    }

    /// The papers' number.
    pub const fn number(self) -> u32 {
        match self {
            Refusal::TableLength => 1,
            Refusal::LentLength => 2,
            Refusal::Broken => 3,
            Refusal::Full => 4,
            Refusal::Output { .. } => 5,
            Refusal::TooManyRanges => 6,
            Refusal::NotPressable => 7,
            Refusal::NotAMessage => 8,
            Refusal::PlaceOutside => 9,
            Refusal::Unknown { number, .. } => number,
        }
    }

    /// The detail that goes with the number; the position of a change is not kept here.
    pub const fn detail(self) -> u32 {
        match self {
            Refusal::Output { spots } => spots,
            Refusal::Unknown { detail, .. } => detail,
            _ => 0,
        }
    }
}

impl fmt::Display for Refusal {
    fn fmt(&self, f: &mut fmt::Formatter<'_>) -> fmt::Result {
        match self {
            Refusal::TableLength => f.write_str("the table is not 9 to 4,096 whole blocks of 2,048 bytes, or the tour is not 1 to 16"),
            Refusal::LentLength => f.write_str(
                "the read map isn't 512 bytes, the work area is shorter than the table, there are not as many counts as ranges, under 32,768 bytes are lent for a tour, or too few for a message or its changes",
            ),
            Refusal::Broken => f.write_str("block 0, or a block that was read, breaks a rule of the layout"),
            Refusal::Full => f.write_str("the table is full, and has no spot of this place and rank"),
            Refusal::Output { spots } => write!(f, "there are {spots} spots, more than the output has room for"),
            Refusal::TooManyRanges => f.write_str("there are more than 64 ranges"),
            Refusal::NotPressable => {
                f.write_str("there are more than 512 spots, the last is cut short, or they don't strictly rise by place, then rank")
            }
            Refusal::NotAMessage => f.write_str("the bytes are no message, or no list of changes"),
            Refusal::PlaceOutside => f.write_str("a place does not lie from -1,000,000 to 1,000,000 cm"),
            Refusal::Unknown { number, .. } => write!(f, "refusal {number}, which this version doesn't know"),
        }
    }
}

impl core::error::Error for Refusal {}
