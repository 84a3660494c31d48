//! The desk summary, request 03.

use crate::types::summaries::{Kept, Summary};
use crate::types::{Answer, Entry};

/// A core that keeps a summary beside a sheet.
pub trait Summaries: Sync {
    /// Works the summary out from a sheet. Refusal: 12.
    fn summary_of(&self, sheet: &[u8]) -> Answer<Summary>;

    /// Saves a record and brings the summary up to date. Refusals: 37, 24, 12, 10, 11, 14, 13;
    /// beside one the summary comes back as it was.
    fn summary_save(
        &self,
        sheet: &mut [u8],
        summary: &Summary,
        entry: &Entry,
        allowance: usize,
    ) -> Kept;
}
