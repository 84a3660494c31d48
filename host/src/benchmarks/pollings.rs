//! A round under way: nanoseconds of one sample, heard and drawn, beside the same samples heard by
//! the call that keeps no round.

use super::Benchmarks;
use crate::calls::{Bare, Lines, Pollings};
use crate::generate;
use crate::stopwatch::Timing;
use crate::types::lines::SoFar;
use crate::types::pollings::{Pace, Polling};
use std::hint::black_box;

/// Samples of each case that hears.
const SAMPLES: usize = 1 << 15;

/// A line sampled about ten times in a pulse.
const PACE: Pace = Pace {
    low: 10,
    still: 12,
    delay: 500,
    least: 8,
    most: 12,
    gap: 100,
    wait: 1_000_000,
    longest: 10_000_000,
    tries: 3,
};

impl<L, R> Benchmarks<'_, L, R>
where
    L: Bare + Lines + Pollings,
    R: Bare + Lines + Pollings,
{
    /// Messages in batches of several sizes, one sample at a time, and polls drawn.
    pub fn pollings(&self, mut tell: impl FnMut(&Timing)) {
        let mut random = self.random();
        let mut samples = Vec::new();
        while samples.len() < SAMPLES {
            samples.extend(generate::drawn(&mut random, PACE.times()).samples);
        }
        samples.truncate(SAMPLES);
        let samples = &samples[..];
        for batch in [64, 1_024] {
            let (left, right) = (
                lines(self.left, samples, batch),
                lines(self.right, samples, batch),
            );
            let name = format!("a sample, batches of {batch}");
            self.time(&mut tell, &name, SAMPLES, left, right);
            let (left, right) = (
                hears(self.left, samples, batch),
                hears(self.right, samples, batch),
            );
            let name = format!("a sample of a round, batches of {batch}");
            self.time(&mut tell, &name, SAMPLES, left, right);
            // The proved library on both sides: what request 16 has a goal for.
            let (left, right) = (
                hears(self.left, samples, batch),
                lines(self.left, samples, batch),
            );
            let name = format!("a sample, round to lines, batches of {batch}");
            self.time(&mut tell, &name, SAMPLES, left, right);
        }
        let few = &samples[..SAMPLES / 16];
        let (left, right) = (lines(self.left, few, 1), lines(self.right, few, 1));
        self.time(&mut tell, "a sample, one by one", few.len(), left, right);
        let (left, right) = (hears(self.left, few, 1), hears(self.right, few, 1));
        self.time(
            &mut tell,
            "a sample of a round, one by one",
            few.len(),
            left,
            right,
        );
        let drawn = PACE.delay as usize + PACE.poll();
        for room in [64, 1_024] {
            let (left, right) = (draws(self.left, room), draws(self.right, room));
            let name = format!("a sample of a round drawn, batches of {room}");
            self.time(&mut tell, &name, drawn, left, right);
        }
    }
}

/// A round of 30 transmitters, polled or not.
fn round(listening: u8) -> Polling {
    let mut polling = Polling {
        listening,
        ..Polling::default()
    };
    polling.round.count = 30;
    for (address, reply) in (1..).zip(&mut polling.round.replies) {
        reply.address = address;
        reply.settings = 1;
    }
    polling
}

/// Hears all samples batch by batch, without a round.
fn lines<'a, C: Lines>(core: &'a C, samples: &'a [u8], batch: usize) -> impl FnMut() + 'a {
    move || {
        let mut so_far = SoFar::default();
        for batch in samples.chunks(batch) {
            let mut rest = black_box(batch);
            while !rest.is_empty() {
                let told = black_box(core.hear_lines(so_far, PACE.times(), rest));
                so_far = told.so_far;
                rest = &rest[told.taken.min(rest.len())..];
            }
        }
    }
}

/// The same in a round that always listens: where a try is settled, the first transmitter is
/// listened to at once.
fn hears<'a, C: Pollings>(core: &'a C, samples: &'a [u8], batch: usize) -> impl FnMut() + 'a {
    let start = round(1);
    move || {
        let mut now = start;
        for batch in samples.chunks(batch) {
            let mut rest = black_box(batch);
            while !rest.is_empty() {
                let told = black_box(core.polling_hear(&mut now, &PACE, 605, rest));
                rest = &rest[told.taken.min(rest.len())..];
                if now.listening == 0 {
                    (now.at, now.tried, now.listening) = (0, 0, 1);
                }
            }
        }
    }
}

/// Draws delay and poll, batch by batch.
fn draws<'a, C: Pollings>(core: &'a C, room: usize) -> impl FnMut() + 'a {
    let start = round(0);
    let mut out = vec![0; room];
    move || {
        let mut now = start;
        while now.listening == 0 {
            black_box(core.polling_draw(&mut now, &PACE, black_box(&mut out)));
        }
    }
}
