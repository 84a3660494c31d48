//! A save told as its stores, our request 19.

use crate::types::stores::SaveStores;
use crate::types::Entry;

/// A core that tells what a save would do.
pub trait Stores: Sync {
    /// The stores that a save of this record would make, all of them, in order. Refusals: 12, 10,
    /// 11, 14, 13.
    fn save_stores(&self, sheet: &[u8], entry: &Entry) -> SaveStores;
}
