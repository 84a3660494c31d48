//! The calls of a recorder core: document 01's as one trait, those of each request, of document 02
//! or our own, as one of its own.
//!
//! Comparisons and benchmarks are written once over these traits. Two sides implement them: the
//! independent reading in this package, and the wrapper of the proved library.

mod areas;
mod bare;
mod drawings;
mod items;
mod joins;
mod lines;
mod pollings;
mod rounds;
mod stores;
mod summaries;

pub use areas::Areas;
pub use bare::Bare;
pub use drawings::Drawings;
pub use items::Items;
pub use joins::Joins;
pub use lines::Lines;
pub use pollings::Pollings;
pub use rounds::Rounds;
pub use stores::Stores;
pub use summaries::Summaries;

use crate::types::{Answer, Entry, Poll, Reading, Row, Slot, Standing, LINE, SLOT};

/// A recorder core. Every call takes every input; the refusals of each are document 01's, in the
/// paper's order.
pub trait Core: Sync {
    /// A row as this core wants it lent.
    type Row: Clone;

    /// Reads a poll. Refusal: 16.
    fn read_poll(&self, poll: &[u8]) -> Answer<Poll>;

    /// Writes a poll into the first 2 bytes and answers 2. Refusals: 11, 15.
    fn write_poll(&self, poll: &Poll, out: &mut [u8]) -> Answer<usize>;

    /// Reads the reply to a poll of `address`. Refusals: 10, 11, 14, then 1 to 9.
    fn read_reply(&self, settings: u8, address: u16, count: usize, reply: &[u8])
        -> Answer<Reading>;

    /// The same by the second reader, two digits at a time, where a core has one of its own.
    fn read_reply_by_pairs(
        &self,
        settings: u8,
        address: u16,
        count: usize,
        reply: &[u8],
    ) -> Answer<Reading> {
        self.read_reply(settings, address, count, reply)
    }

    /// Writes a reply into the first 5 or 7 bytes and answers how many. Refusals: 10, 11, 15.
    fn write_reply(
        &self,
        settings: u8,
        address: u16,
        reading: &Reading,
        out: &mut [u8],
    ) -> Answer<usize>;

    /// Saves a record with at most `allowance` stores and answers the stores made.
    /// Refusals: 12, 10, 11, 14, 13.
    fn save(&self, sheet: &mut [u8], entry: &Entry, allowance: usize) -> Answer<usize>;

    /// Looks at a slot. Refusal: 12.
    fn look(&self, sheet: &[u8], slot: usize) -> Answer<Slot>;

    /// The listing's first line, newline included, into the front of `line`; answers its bytes.
    /// The caller lends [`LINE`] bytes or more. Refusal: 12.
    fn head_line(&self, sheet: &[u8], line: &mut [u8]) -> Answer<usize>;

    /// The line of a slot in the same way; 0 bytes for a blank one. Refusal: 12.
    fn slot_line(&self, sheet: &[u8], slot: usize, line: &mut [u8]) -> Answer<usize>;

    /// The listing's last line in the same way. Refusal: 12.
    fn last_line(&self, sheet: &[u8], line: &mut [u8]) -> Answer<usize>;

    /// Appends what the program "list" prints for this sheet.
    ///
    /// A core that keeps count of the records on its way may do better than this.
    fn list(&self, sheet: &[u8], text: &mut Vec<u8>) {
        let mut line = [0; LINE];
        match self.head_line(sheet, &mut line) {
            Ok(bytes) => text.extend_from_slice(&line[..bytes.min(LINE)]),
            Err(fault) => {
                text.extend_from_slice(format!("fault {}\n", fault.number()).as_bytes());
                return;
            }
        }
        for slot in 0..sheet.len() / SLOT {
            if let Ok(bytes) = self.slot_line(sheet, slot, &mut line) {
                text.extend_from_slice(&line[..bytes.min(LINE)]);
            }
        }
        if let Ok(bytes) = self.last_line(sheet, &mut line) {
            text.extend_from_slice(&line[..bytes.min(LINE)]);
        }
    }

    /// Enrols a transmitter in the first free row, with its sensor profile and mark.
    /// Refusals: 10, 11, 27, 18, 19.
    fn enrol(&self, rows: &mut [Self::Row], settings: u8, address: u16, gauge: u8) -> Answer<()>;

    /// Hears a reply to a poll of `address`. Refusals: 11, 14, 17, 10, then 1 to 9, 26.
    fn hear(
        &self,
        rows: &mut [Self::Row],
        minute: u32,
        address: u16,
        count: usize,
        reply: &[u8],
    ) -> Answer<()>;

    /// Removes a transmitter. Refusals: 11, 17.
    fn remove(&self, rows: &mut [Self::Row], address: u16) -> Answer<()>;

    /// Looks a transmitter up. Refusals: 11, 17.
    fn look_up(&self, rows: &[Self::Row], address: u16) -> Answer<Standing>;

    /// Writes a row's poll into the first 2 bytes, with raise or reset where they are not 0.
    /// Refusals: 11, 17, 28, 15.
    fn poll_row(
        &self,
        rows: &[Self::Row],
        address: u16,
        raise: u8,
        reset: u8,
        out: &mut [u8],
    ) -> Answer<()>;

    /// This core's row for what a row says.
    fn row(&self, says: &Row) -> Self::Row;

    /// What this core's row says, in use or free: every field, so that a change shows.
    fn says(&self, row: &Self::Row) -> Row;
}
