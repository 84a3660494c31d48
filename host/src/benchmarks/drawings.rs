//! Drawing: nanoseconds of one sample.

use super::Benchmarks;
use crate::calls::{Bare, Drawings};
use crate::stopwatch::Timing;
use crate::types::drawings::Drawing;
use std::hint::black_box;

/// Samples of one batch, as a port might take them.
const BATCH: usize = 1 << 10;

impl<L: Bare + Drawings, R: Bare + Drawings> Benchmarks<'_, L, R> {
    /// A reply of 56 bits by pulses of about ten samples, and by long ones.
    pub fn drawings(&self, mut tell: impl FnMut(&Timing)) {
        let mut message = [0; 7];
        self.random().fill(&mut message);
        for (name, low, still) in [
            ("a sample drawn, short pulses", 10, 12),
            ("a sample drawn, long pulses", 1_000, 1_200),
        ] {
            let drawing = Drawing {
                low,
                still,
                count: 56,
                message: &message,
            };
            let samples = drawing.count * (low + still);
            let (left, right) = (draws(self.left, drawing), draws(self.right, drawing));
            self.time(&mut tell, name, samples, left, right);
        }
    }
}

/// Draws a whole message, batch by batch.
fn draws<'a, C: Drawings>(core: &'a C, drawing: Drawing<'a>) -> impl FnMut() + 'a {
    let mut out = [0; BATCH];
    move || {
        let mut from = 0;
        while let Ok(count @ 1..) = core.draw(black_box(&drawing), from, &mut out) {
            black_box(&out);
            from += count;
        }
    }
}
