//! Summaries put together, request 08.

use crate::types::summaries::Summary;
use crate::types::Answer;

/// A core that puts summaries together.
pub trait Joins: Sync {
    /// Joins two summaries. Refusals: 37, 25, 24.
    fn summary_join(&self, one: &Summary, other: &Summary) -> Answer<Summary>;
}
