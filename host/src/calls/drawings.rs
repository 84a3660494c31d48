//! Speaking on the lines, our request 15.

use crate::types::drawings::Drawing;
use crate::types::Answer;

/// A core that draws messages.
pub trait Drawings: Sync {
    /// Draws the samples from `from` on, as many as there are or fit, and answers how many.
    /// Refusals: 20, 14.
    fn draw(&self, drawing: &Drawing, from: usize, out: &mut [u8]) -> Answer<usize>;
}
