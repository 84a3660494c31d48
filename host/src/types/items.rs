//! Item records of Enraf gauges, as request 13 of document 02 has them.

use std::fmt;

/// Most characters of data.
pub const MOST_DATA: usize = 16;
/// Bytes of the shortest record, an item alone, and of the longest, a setting taken.
pub const SHORTEST_RECORD: usize = 10;
pub const LONGEST_RECORD: usize = 28;

/// The kinds of an item's text, by the numbers that the calls use.
pub const ALONE: u8 = 1;
pub const SETTING: u8 = 2;
pub const TAKEN: u8 = 3;
pub const SETTING_TAKEN: u8 = 4;
pub const VALUE: u8 = 5;
pub const ERROR: u8 = 6;

/// An item as a record tells it.
#[derive(Clone, Copy, PartialEq, Eq)]
pub struct Item {
    pub ciu: u8,
    pub gauge: u8,
    /// Two capital letters.
    pub letters: [u8; 2],
    pub kind: u8,
    /// The number of an error; 0 for any other kind.
    pub error: u16,
    /// The data, 0 after its length.
    pub data: [u8; MOST_DATA],
    pub length: u8,
}

impl Item {
    /// The data's own characters.
    pub fn data(&self) -> &[u8] {
        &self.data[..usize::from(self.length).min(MOST_DATA)]
    }

    /// The same item, to be written.
    pub fn asked(&self) -> ItemAsked<'_> {
        ItemAsked {
            ciu: self.ciu.into(),
            gauge: self.gauge.into(),
            letters: self.letters,
            kind: self.kind,
            error: self.error,
            data: self.data(),
        }
    }
}

/// An item to be written, not yet checked.
#[derive(Clone, Copy, PartialEq, Eq)]
pub struct ItemAsked<'a> {
    pub ciu: u16,
    pub gauge: u16,
    pub letters: [u8; 2],
    pub kind: u8,
    pub error: u16,
    pub data: &'a [u8],
}

impl fmt::Debug for ItemAsked<'_> {
    fn fmt(&self, f: &mut fmt::Formatter) -> fmt::Result {
        let (letters, data) = (self.letters.escape_ascii(), self.data.escape_ascii());
        write!(
            f,
            "Item {{ CIU {}, gauge {}, \"{letters}\", kind {}, error {}, \"{data}\" }}",
            self.ciu, self.gauge, self.kind, self.error
        )
    }
}

impl fmt::Debug for Item {
    fn fmt(&self, f: &mut fmt::Formatter) -> fmt::Result {
        let rest = self.data[self.data().len()..].escape_ascii();
        write!(f, "{:?} and \"{rest}\"", self.asked())
    }
}
