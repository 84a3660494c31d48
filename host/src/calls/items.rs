//! Enraf item records, request 13.

use crate::types::items::{Item, ItemAsked};
use crate::types::Answer;

/// A core that reads and writes Enraf item records.
pub trait Items: Sync {
    /// Reads a record. Refusals: 29, 30, 31, 32.
    fn read_item(&self, record: &[u8]) -> Answer<Item>;

    /// Writes a record into the first bytes and answers how many. Refusals: 31, 32, 33.
    fn write_item(&self, item: &ItemAsked, out: &mut [u8]) -> Answer<usize>;
}
