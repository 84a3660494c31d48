//! A whole round in one save, request 05.

use crate::types::rounds::{Round, Rounded};
use crate::types::summaries::Summary;

/// A core that saves whole rounds.
pub trait Rounds: Sync {
    /// Saves the replies of a round one after another, until one is refused or no store is left.
    /// Refusals: 23, then each save's own.
    fn save_round(&self, sheet: &mut [u8], round: &Round, allowance: usize) -> Rounded;

    /// The same, each save bringing the summary up to date. Refusals: 23, then those of each save
    /// with a summary.
    fn summary_save_round(
        &self,
        sheet: &mut [u8],
        summary: &Summary,
        round: &Round,
        allowance: usize,
    ) -> (Summary, Rounded);
}
