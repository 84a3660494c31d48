//! A message drawn run by run: what is left of the run that the first sample lies in, and then one
//! run after another.

use super::word::pack;
use super::IndependentReading;
use crate::calls::Drawings;
use crate::types::drawings::Drawing;
use crate::types::{Answer, Fault};

const LONGEST_LOW: usize = 1_000;
const LONGEST_STILL: usize = 10_000;

const IDLE: u8 = 0;
const MARK: u8 = 1;
const SPACE: u8 = 2;

impl Drawings for IndependentReading {
    // Kept out of line, as a call of the archive is.
    #[inline(never)]
    fn draw(&self, drawing: &Drawing, from: usize, out: &mut [u8]) -> Answer<usize> {
        draw(drawing, from, out)
    }
}

/// Draws the samples from `from` on, as many as there are or fit.
pub fn draw(drawing: &Drawing, from: usize, out: &mut [u8]) -> Answer<usize> {
    let &Drawing {
        low,
        still,
        count,
        message,
    } = drawing;
    if !(1..=LONGEST_LOW).contains(&low) || !(1..=LONGEST_STILL).contains(&still) {
        return Err(Fault::Timing);
    }
    let word = pack(count, message)?;
    let size = low + still;
    let drawn = (count * size).saturating_sub(from).min(out.len());
    let (mut bit, mut passed) = (from / size, from % size);
    let mut rest = &mut out[..drawn];
    while !rest.is_empty() {
        let line = if word << bit >> 63 == 1 { MARK } else { SPACE };
        rest = run(rest, line, low.saturating_sub(passed));
        rest = run(rest, IDLE, size - passed.max(low));
        (bit, passed) = (bit + 1, 0);
    }
    Ok(drawn)
}

/// One run, as much of it as fits; hands back what is left.
fn run(rest: &mut [u8], sample: u8, length: usize) -> &mut [u8] {
    let (now, later) = rest.split_at_mut(length.min(rest.len()));
    now.fill(sample);
    later
}
