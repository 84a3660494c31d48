//! Messages to be drawn, good and bad.

use super::wild_count;
use crate::random::Random;
use crate::types::drawings::Drawing;

/// A message with what it takes to draw it, its bytes its own.
#[derive(Clone, Debug)]
pub struct DrawingCase {
    pub low: usize,
    pub still: usize,
    pub count: usize,
    pub message: Vec<u8>,
}

impl DrawingCase {
    pub fn drawing(&self) -> Drawing<'_> {
        Drawing {
            low: self.low,
            still: self.still,
            count: self.count,
            message: &self.message,
        }
    }
}

/// Lengths up to a limit, short ones mostly.
fn length(random: &mut Random, limit: usize) -> usize {
    match random.below(8) {
        0 => limit,
        1 => 1 + random.below(limit),
        _ => 1 + random.below(12),
    }
}

/// A message that is drawn: 0 to 64 bits in form, lengths in range.
pub fn good_drawing(random: &mut Random) -> DrawingCase {
    let count = match random.below(8) {
        0 => 0,
        1 => 64,
        2 => 16,
        _ => random.below(65),
    };
    let mut message = vec![0; count.div_ceil(8)];
    random.fill(&mut message);
    if let Some(last) = message.last_mut().filter(|_| count % 8 != 0) {
        *last &= 0xFFu8 << (8 - count % 8);
    }
    DrawingCase {
        low: length(random, 1_000),
        still: length(random, 10_000),
        count,
        message,
    }
}

/// A length that is refused, or would be if a wide number were cut.
fn bad_length(random: &mut Random, limit: usize) -> usize {
    match random.below(5) {
        0 => 0,
        1 => limit + 1,
        2 => 65_536 + 1 + random.below(limit),
        3 => (1 << 32) + 1 + random.below(limit),
        _ => usize::MAX - random.below(4),
    }
}

/// A message of any kind: half of them good, the others with one thing wrong or two.
pub fn drawing(random: &mut Random) -> DrawingCase {
    let mut case = good_drawing(random);
    if random.coin() {
        return case;
    }
    for _ in 0..1 + random.below(2) {
        match random.below(6) {
            0 => case.low = bad_length(random, 1_000),
            1 => case.still = bad_length(random, 10_000),
            2 => case.count = wild_count(random),
            3 => case.message.push(0),
            4 => drop(case.message.pop()),
            _ => {
                // A pad bit, where the count leaves one.
                case.count -= usize::from(case.count % 8 == 0 && case.count > 0);
                if let Some(last) = case.message.last_mut() {
                    *last |= 1;
                }
            }
        }
    }
    case
}

/// A sample to draw from: within the drawing, about its end, or anywhere.
pub fn from_sample(random: &mut Random, case: &DrawingCase) -> usize {
    let all = case
        .count
        .saturating_mul(case.low.saturating_add(case.still));
    match random.below(8) {
        0 => 0,
        1 => all.saturating_add(random.below(3)).saturating_sub(1),
        2 => usize::MAX - random.below(3),
        3 => (1 << 32) + random.below(all.clamp(1, 1 << 20)),
        _ => random.below(all.clamp(1, 1 << 20)),
    }
}
