//! Hearing the lines, request 01.

use crate::types::lines::{LinesTold, PulseTimes, SoFar};

/// A core that hears the lines.
pub trait Lines: Sync {
    /// Hears samples up to the one that closes a message, which it hands over. Refusals: 20, asked
    /// first; 22 or 21 for a spoiled message.
    fn hear_lines(&self, so_far: SoFar, times: PulseTimes, samples: &[u8]) -> LinesTold;
}
