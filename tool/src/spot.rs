//! A spot and its identity.

/// Place and rank: what a spot is known by. The order is the place order.
#[derive(Clone, Copy, Debug, PartialEq, Eq, PartialOrd, Ord, Hash)]
pub struct Key {
    pub place: i32,
    pub rank: i32,
}

impl From<spot_reference::Key> for Key {
    fn from((place, rank): spot_reference::Key) -> Key {
        Key { place, rank }
    }
}

impl std::fmt::Display for Key {
    fn fmt(&self, f: &mut std::fmt::Formatter) -> std::fmt::Result {
        write!(f, "place {} rank {}", self.place, self.rank)
    }
}

/// A place in centimetres, a rank and a track number. The order is the place order, then tracks.
#[derive(Clone, Copy, Debug, PartialEq, Eq, PartialOrd, Ord, Hash)]
pub struct Spot {
    pub place: i32,
    pub rank: i32,
    pub track: u32,
}

impl Spot {
    pub fn key(self) -> Key {
        Key { place: self.place, rank: self.rank }
    }
}
