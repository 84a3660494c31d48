//! The lines: nanoseconds of one sample.

use super::Benchmarks;
use crate::calls::{Bare, Lines};
use crate::generate;
use crate::random::Random;
use crate::stopwatch::Timing;
use crate::types::lines::{PulseTimes, SoFar};
use std::hint::black_box;

/// Samples of each case, handed over in batches of so many.
const SAMPLES: usize = 1 << 16;
const BATCH: usize = 1 << 10;

/// A line sampled about ten times in a pulse.
const TIMES: PulseTimes = PulseTimes {
    least: 8,
    most: 12,
    gap: 100,
};

impl<L: Bare + Lines, R: Bare + Lines> Benchmarks<'_, L, R> {
    /// A line that is idle, one full of messages, a stuck one, and noise.
    pub fn lines(&self, mut tell: impl FnMut(&Timing)) {
        let cases = [
            ("a sample, idle line", vec![0; SAMPLES]),
            ("a sample, messages", messages(&mut self.random())),
            ("a sample, stuck line", vec![2; SAMPLES]),
            ("a sample, noise", noise(&mut self.random())),
        ];
        for (name, samples) in &cases {
            let (left, right) = (hears(self.left, samples), hears(self.right, samples));
            self.time(&mut tell, name, samples.len(), left, right);
        }
    }
}

/// How many million samples a second such a time comes to, proved and independent.
pub fn millions(timing: &Timing) -> (f64, f64) {
    (1e3 / timing.left, 1e3 / timing.right)
}

/// Drawn messages, whole ones mostly.
fn messages(random: &mut Random) -> Vec<u8> {
    let mut samples = Vec::new();
    while samples.len() < SAMPLES {
        samples.extend(generate::drawn(random, TIMES).samples);
    }
    samples.truncate(SAMPLES);
    samples
}

/// Any of the four samples, no two related.
fn noise(random: &mut Random) -> Vec<u8> {
    (0..SAMPLES).map(|_| random.below(4) as u8).collect()
}

/// Hears all samples, batch by batch; what a call does not take is handed over again.
fn hears<'a, C: Lines>(core: &'a C, samples: &'a [u8]) -> impl FnMut() + 'a {
    move || {
        let mut so_far = SoFar::default();
        for batch in samples.chunks(BATCH) {
            let mut rest = black_box(batch);
            while !rest.is_empty() {
                let told = black_box(core.hear_lines(so_far, TIMES, rest));
                so_far = told.so_far;
                rest = &rest[told.taken.min(rest.len())..];
            }
        }
    }
}
