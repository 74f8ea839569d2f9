//! The files that spotcard makes, told apart by what stands in them.

use crate::changes;
use crate::sheet::{is_card, is_sheet};
use crate::store::is_tour;

#[derive(Clone, Copy, Debug, PartialEq, Eq)]
pub enum Kind {
    Card,
    Tour,
    Changes,
    Picture,
    Sheet,
}

impl Kind {
    pub fn of(bytes: &[u8]) -> Option<Kind> {
        if is_tour(bytes) {
            Some(Kind::Tour)
        } else if is_card(bytes) {
            Some(Kind::Card)
        } else if changes::split(bytes).is_ok() {
            Some(Kind::Changes)
        } else if is_picture(bytes) {
            Some(Kind::Picture)
        } else if is_sheet(bytes) {
            Some(Kind::Sheet)
        } else {
            None
        }
    }

    pub fn words(self) -> &'static str {
        match self {
            Kind::Card => "a card",
            Kind::Tour => "a pressed tour",
            Kind::Changes => "a file of changes",
            Kind::Picture => "a picture",
            Kind::Sheet => "a sheet",
        }
    }

    /// Why a file that is there with these bytes is not replaced by one of this kind; nothing if it may be. An empty file is of every kind.
    pub fn kept(self, name: &str, old: &[u8], force: bool) -> Option<String> {
        let is_own = old.is_empty() || Kind::of(old) == Some(self);
        let own = self.words();
        match (is_own, force) {
            (true, true) => None,
            (true, false) => {
                Some(format!("{name} exists already, and is left as it is. Choose another name, or say --force to put {own} in its place."))
            }
            (false, _) => {
                let other = Kind::of(old).map_or(String::new(), |kind| format!(" and is {}", kind.words()));
                Some(format!(
                    "{name} exists already{other}; --force replaces nothing but {own} here. It is left as it is; choose another name."
                ))
            }
        }
    }
}

/// An SVG file, ours or not.
fn is_picture(bytes: &[u8]) -> bool {
    let start = String::from_utf8_lossy(&bytes[..bytes.len().min(1024)]);
    start.trim_start().starts_with('<') && start.contains("<svg")
}
