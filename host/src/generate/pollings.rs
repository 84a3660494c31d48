//! Rounds under way: paces, states of every kind, boards to begin from, and what the lines bring after
//! a poll.

use super::lines::{end_or, Drawn};
use super::{address, minute, pulse_times, refused_address, samples, so_far};
use crate::random::Random;
use crate::reading::board::enrol;
use crate::types::lines::SoFar;
use crate::types::pollings::{Pace, Polling};
use crate::types::rounds::{Polled, MOST_REPLIES};
use crate::types::Row;

/// A pace that is not refused, ends of the ranges among its numbers.
pub fn pace(random: &mut Random) -> Pace {
    let times = pulse_times(random);
    let wait = end_or(random, 1, 1_000_000);
    Pace {
        low: end_or(random, 1, 1_000),
        still: end_or(random, 1, 10_000),
        delay: end_or(random, 0, 1_000_000),
        least: times.least as u32,
        most: times.most as u32,
        gap: times.gap as u32,
        wait,
        longest: end_or(random, wait, 10_000_000),
        tries: 1 + random.below(9) as u32,
    }
}

/// A pace at which a whole round takes few samples.
pub fn quick_pace(random: &mut Random) -> Pace {
    let (most, wait) = (1 + random.below(8), 1 + random.below(120) as u32);
    let longest = match random.below(4) {
        0 => wait,
        1 => wait + random.below(60) as u32,
        _ => wait + random.below(1_500) as u32,
    };
    Pace {
        low: 1 + random.below(4) as u32,
        still: 1 + random.below(4) as u32,
        delay: [0, 1, random.below(30) as u32][random.below(3)],
        least: 1 + random.below(most) as u32,
        most: most as u32,
        gap: [1, 2, 2 + random.below(24) as u32][random.below(3)],
        wait,
        longest,
        tries: [1, 2, 3, 1 + random.below(9) as u32][random.below(4)],
    }
}

/// A pace that is refused for one of its numbers, or for two that do not go together; some of them a
/// narrower number would take for a good one.
pub fn bad_pace(random: &mut Random) -> Pace {
    let mut pace = pace(random);
    let wide = [1 << 16, 1 << 24, 1 << 31][random.below(3)];
    match random.below(20) {
        0 => pace.low = 0,
        1 => pace.low = 1_001,
        2 => pace.low += wide,
        3 => pace.still = 0,
        4 => pace.still = 10_001,
        5 => pace.still += wide,
        6 => pace.delay = 1_000_001,
        7 => pace.delay += wide.max(1 << 24),
        8 => pace.least = 0,
        9 => pace.least = pace.most + 1,
        10 => pace.most = 1_001,
        11 => pace.most += wide,
        12 => pace.gap = [0, 10_001, pace.gap + wide][random.below(3)],
        13 => pace.wait = 0,
        14 => (pace.wait, pace.longest) = (1_000_001, 10_000_000),
        15 => pace.wait = pace.longest + 1,
        16 => pace.longest = pace.wait - 1,
        17 => pace.longest = 10_000_001,
        18 => pace.longest += wide.max(1 << 24),
        _ => pace.tries = [0, 10, 11, 256 + pace.tries, pace.tries + wide][random.below(5)],
    }
    pace
}

/// A reply as a round that was handed in may have it: anything, its address mostly one that has a poll.
fn any_reply(random: &mut Random) -> Polled {
    let mut reply = [0; 8];
    random.fill(&mut reply);
    Polled {
        minute: minute(random),
        count: [0, 40, random.below(80) as u32, random.next() as u32][random.below(4)],
        bytes: [0, 5, random.below(12) as u32, random.next() as u32][random.below(4)],
        address: match random.one_in(8) {
            true => refused_address(random),
            false => address(random),
        },
        settings: random.byte(),
        unused: random.byte(),
        reply,
    }
}

/// A state of any kind, near one of the limits of its pace more often than chance would have it.
pub fn polling(random: &mut Random, pace: &Pace) -> Polling {
    let mut polling = Polling {
        listening: [0, 0, 1, 1, 1, random.byte()][random.below(6)],
        tried: match random.below(4) {
            0 => random.byte(),
            1 => (pace.tries as u8).wrapping_sub(1),
            _ => random.below(9) as u8,
        },
        ..Polling::default()
    };
    let round = &mut polling.round;
    round.count = match random.below(24) {
        0 => [31, 32, 255, 256, 286, 1 << 32, usize::MAX][random.below(7)],
        1 => 0,
        2 => MOST_REPLIES,
        _ => 1 + random.below(MOST_REPLIES),
    };
    for reply in &mut round.replies {
        *reply = any_reply(random);
    }
    let count = round.count.min(MOST_REPLIES);
    polling.at = match random.below(16) {
        0 => count as u16,
        1 => [u16::MAX, 31, 256, 257, 65_280][random.below(5)],
        2 => count.saturating_sub(1) as u16,
        _ => random.below(count.max(1)) as u16,
    };
    let limit = match (polling.listening, random.coin()) {
        (0, true) => pace.delay,
        (0, false) => pace.delay.saturating_add(pace.poll() as u32),
        (_, true) => pace.wait,
        (_, false) => pace.longest,
    };
    polling.passed = match random.below(8) {
        0 => 0,
        1 => u32::MAX - random.below(3) as u32,
        2 => random.next() as u32 >> random.below(32),
        3 => limit.saturating_add(random.below(3) as u32),
        _ => limit.saturating_sub(random.below(60) as u32),
    };
    polling.lines = match random.below(3) {
        0 => so_far(random),
        _ => SoFar::default(),
    };
    polling
}

/// A few samples to hand in with a state: idle or low about as long as a limit is away, or anything.
pub fn few_samples(random: &mut Random, polling: &Polling, pace: &Pace) -> Vec<u8> {
    let limit = [pace.wait, pace.longest][random.below(2)];
    let away = limit.saturating_sub(polling.passed).min(2_000) as usize;
    let length = (away + random.below(3)).saturating_sub(1);
    let sample = [0, 0, 1, 2, 3, 200][random.below(6)];
    match random.below(4) {
        0 => {
            // Drawn at a good pace, whatever the one is that they are handed in with.
            let good = (1..=pace.most).contains(&pace.least) && pace.most <= 1_000;
            let times = match good && (1..=10_000).contains(&pace.gap) {
                true => pace.times(),
                false => pulse_times(random),
            };
            samples(random, times)
        }
        1 => {
            let mut idle = vec![0; length];
            idle.push(sample);
            idle.resize(length + random.below(40), sample);
            idle
        }
        2 => vec![sample; length],
        _ => vec![sample; random.below(40)],
    }
}

/// A board that enrolments made: its rows in use, and free ones behind them.
pub fn enrolled(random: &mut Random) -> Vec<Row> {
    let mut rows = vec![Row::default(); random.below(34)];
    let most = match random.below(4) {
        0 => 40,
        _ => random.below(8),
    };
    for _ in 0..most {
        // One that stands there already, and one for which no row is left, are refused.
        let _ = enrol(&mut rows, random.below(16) as u8, address(random), 0);
    }
    rows
}

/// What the lines bring after a poll: samples, then one sample for ever; and what is to be told of
/// them.
#[derive(Clone, Debug, PartialEq, Eq)]
pub struct Sensed {
    pub samples: Vec<u8>,
    pub then: u8,
    /// The samples that settle it.
    pub taken: usize,
    /// The bits of the message, from bit 1 on; none where there is no message.
    pub bits: Vec<bool>,
    /// 21 or 22 where it was spoiled or given up, else 0.
    pub number: u8,
}

impl Sensed {
    /// The samples of a batch of what comes.
    pub fn batch(&self, from: usize, length: usize) -> Vec<u8> {
        let at = |n: usize| self.samples.get(n).copied().unwrap_or(self.then);
        (from..from + length).map(at).collect()
    }

    /// The same with this much idle before it, as far as its pace lets it come to an end.
    fn after(mut self, idle: usize, pace: &Pace) -> Sensed {
        self.samples.splice(0..0, vec![0; idle]);
        self.taken += idle;
        let (wait, longest) = (pace.wait as usize, pace.longest as usize);
        if idle >= wait {
            (self.taken, self.number) = (wait, 0);
            self.bits.clear();
        } else if self.taken > longest {
            let foreign = self.batch(0, longest).iter().any(|&sample| sample > 3);
            (self.taken, self.number) = (longest, if foreign { 22 } else { 21 });
            self.bits.clear();
        }
        self
    }
}

/// Idle before an answer: in time or just so, just late, or so that the answer closes about where it is
/// given up.
fn lead(random: &mut Random, pace: &Pace, taken: usize) -> usize {
    let (wait, longest) = (pace.wait as usize, pace.longest as usize);
    match random.below(8) {
        0 => 0,
        1 => wait - 1,
        2 => wait + random.below(3),
        3 | 4 => (longest + random.below(3))
            .saturating_sub(taken + 1)
            .min(wait - 1),
        _ => random.below(wait),
    }
}

/// An answer as a transmitter gives it, or damage of any kind, or nothing.
pub fn sensed(random: &mut Random, pace: &Pace) -> Sensed {
    let times = pace.times();
    let mut drawn = Drawn::default();
    let (mut then, mut ends) = (0, true);
    match random.below(8) {
        0 => {
            return Sensed {
                samples: Vec::new(),
                then,
                taken: pace.wait as usize,
                bits: Vec::new(),
                number: 0,
            }
        }
        1 => {
            // A line that stays low from the first sample on, or after some bits; or the sampler is
            // at fault.
            (then, ends) = ([1, 2, 3, 200][random.below(4)], false);
            let length = random.below(4);
            drawn.restless(random, times, length);
            drawn.samples.push(then);
        }
        2 if times.gap > 1 => {
            (then, ends) = (3, false);
            drawn.restless(random, times, pace.longest as usize);
        }
        2 | 3 => drawn.spoiled(random, times),
        _ => drawn.message(random, times),
    }
    let told = drawn.sayings.pop().filter(|_| ends);
    let sensed = Sensed {
        then,
        taken: told.as_ref().map_or(usize::MAX / 2, |told| told.taken),
        number: told.as_ref().map_or(0, |told| told.number),
        bits: told.map_or(Vec::new(), |told| told.bits),
        samples: drawn.samples,
    };
    let lead = lead(random, pace, sensed.taken);
    sensed.after(lead, pace)
}

/// Samples of any kind after a poll, of which nothing is known.
pub fn noise(random: &mut Random, pace: &Pace) -> Sensed {
    Sensed {
        samples: samples(random, pace.times()),
        then: [0, 0, 0, 1, 2, 3, 200][random.below(7)],
        taken: 0,
        bits: Vec::new(),
        number: 0,
    }
}

#[cfg(test)]
mod tests {
    use super::*;
    use crate::random::SEED;
    use crate::reading::pollings::{begin, draw, hear};

    #[test]
    fn bad_paces_are_refused_and_good_ones_are_not() {
        let mut random = Random::new(SEED, 0);
        let polling = Polling::default();
        for _ in 0..10_000 {
            let told = |pace| draw(&mut { polling }, &pace, &mut []).number;
            assert_eq!(told(pace(&mut random)), 0);
            assert_eq!(told(quick_pace(&mut random)), 0);
            assert_eq!(told(bad_pace(&mut random)), 20);
        }
    }

    #[test]
    fn states_come_to_every_outcome() {
        let mut random = Random::new(SEED, 0);
        let mut seen = [0u32; 9];
        for _ in 0..20_000 {
            let pace = pace(&mut random);
            let mut state = polling(&mut random, &pace);
            let samples = few_samples(&mut random, &state, &pace);
            let told = hear(&mut state, &pace, 1, &samples);
            let outcome = match (told.over, told.number, told.answered) {
                (1, 0, 0) => 0,
                (0, 0, 0) if state.listening == 0 && told.taken == 0 => 1,
                (0, 0, 0) if state.listening == 0 => 2,
                (0, 0, 0) => 3,
                (_, 21, 0) => 4,
                (_, 22, 0) => 5,
                (_, 21, 1) => 6,
                (_, 22, 1) => 7,
                _ => 8,
            };
            seen[outcome] += 1;
        }
        assert!(seen.iter().all(|&times| times > 50), "{seen:?}");
    }

    #[test]
    fn boards_are_of_every_size() {
        let mut random = Random::new(SEED, 0);
        let mut seen = [0u32; 31];
        for _ in 0..5_000 {
            let begun = begin(&enrolled(&mut random), 1);
            assert_eq!(begun.number, 0);
            seen[begun.polling.round.count] += 1;
        }
        assert!(seen.iter().all(|&times| times > 10), "{seen:?}");
    }

    #[test]
    fn what_is_sensed_is_settled_in_every_way() {
        let mut random = Random::new(SEED, 0);
        let mut seen = [0u32; 6];
        let mut just = [0u32; 2];
        for _ in 0..20_000 {
            let pace = quick_pace(&mut random);
            let sensed = sensed(&mut random, &pace);
            let at_end = sensed.taken == pace.longest as usize;
            let outcome = match (sensed.number, sensed.bits.len()) {
                (0, 0) => 0,
                (0, _) => 1,
                (21, _) if at_end => 2,
                (21, _) => 3,
                (_, _) if at_end => 4,
                _ => 5,
            };
            seen[outcome] += 1;
            if outcome == 1 {
                just[usize::from(at_end)] += 1;
            }
        }
        assert!(seen.iter().all(|&times| times > 100), "{seen:?}");
        assert!(just.iter().all(|&times| times > 100), "{just:?}");
    }
}
