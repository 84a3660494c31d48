//! Samples of the lines: drawn messages, damage of every kind, noise; and states handed in.

use crate::random::Random;
use crate::types::lines::{PulseTimes, SoFar};

/// Most samples of a stream, about.
const ENOUGH: usize = 6_000;

/// Timing numbers that are not refused: short ones mostly, now and then an end of the range.
pub fn pulse_times(random: &mut Random) -> PulseTimes {
    let most = match random.below(16) {
        0 => 1,
        1 => 1_000,
        2 => 1 + random.below(1_000),
        _ => 1 + random.below(8),
    };
    let least = match random.below(4) {
        0 => most,
        1 => 1,
        _ => 1 + random.below(most),
    };
    let gap = match random.below(16) {
        0 => 1,
        1 => 10_000,
        2 => 1 + random.below(10_000),
        _ => 1 + random.below(24),
    };
    PulseTimes { least, most, gap }
}

/// Timing numbers that are refused for one of them, or for two that do not go together.
pub fn bad_times(random: &mut Random) -> PulseTimes {
    let mut times = pulse_times(random);
    // Numbers that a narrower one would take for a good one.
    let wide = |random: &mut Random, good: usize| match random.below(4) {
        0 => good + (1 << 16),
        1 => good + (1 << 32),
        2 => good + (1 << 8 << 8 << 8),
        _ => usize::MAX - random.below(9),
    };
    match random.below(8) {
        0 => times.least = 0,
        1 => times.least = times.most + 1,
        2 => times.most = 1_001 + random.below(9),
        3 => times.gap = 0,
        4 => times.gap = 10_001 + random.below(9),
        5 => times.least = wide(random, times.least),
        6 => times.most = wide(random, times.most),
        _ => times.gap = wide(random, times.gap),
    }
    times
}

/// A state of any kind: one that calls leave, one that is so but for one field, or anything.
pub fn so_far(random: &mut Random) -> SoFar {
    let mut state = match random.below(8) {
        0 => SoFar::default(),
        1 => between(random),
        2 | 3 => SoFar {
            line: 1 + random.below(2) as u8,
            run: end_or(random, 1, 1_001),
            ..with_bits(random, 0)
        },
        4 | 5 => SoFar {
            fault: 21 + random.below(2) as u8,
            run: end_or(random, 0, 9_999),
            ..SoFar::default()
        },
        6 => between(random),
        _ => SoFar {
            bits: random.next(),
            run: random.next() as u32,
            count: random.next() as u16,
            line: random.byte(),
            fault: random.byte(),
        },
    };
    match random.below(16) {
        0 => state.bits ^= 1 << random.below(64),
        1 => state.run = random.next() as u32 >> random.below(32),
        2 => state.run = [0, 1, 1_000, 1_001, 1_002, 9_999, 10_000][random.below(7)],
        3 => state.count = [0, 1, 63, 64, 65, 200, 256, 320][random.below(8)],
        4 => state.line = [0, 1, 2, 3, 4, 255][random.below(6)],
        5 => state.fault = [0, 1, 20, 21, 22, 23, 255][random.below(7)],
        _ => {}
    }
    state
}

/// A state between two pulses.
fn between(random: &mut Random) -> SoFar {
    SoFar {
        run: end_or(random, 1, 9_999),
        ..with_bits(random, 1)
    }
}

/// A state with as many bits as `least` or more, those past the count 0.
fn with_bits(random: &mut Random, least: usize) -> SoFar {
    let count = end_or(random, least as u32, 64);
    SoFar {
        bits: random.next() & !(u64::MAX.checked_shr(count).unwrap_or(0)),
        count: count as u16,
        ..SoFar::default()
    }
}

/// A number between two, short ones and the ends more often than chance would have them.
pub(super) fn end_or(random: &mut Random, least: u32, most: u32) -> u32 {
    match random.below(8) {
        0 => least,
        1 => most,
        2 => most - 1,
        3 => least + random.below((most - least + 1) as usize) as u32,
        _ => least + random.below(12.min(most - least + 1) as usize) as u32,
    }
}

/// What must be told of a drawn stream: of what, and after how many samples of the whole stream.
#[derive(Clone, Debug, PartialEq, Eq)]
pub struct Saying {
    /// The bits, from bit 1 on; none for a spoiled message.
    pub bits: Vec<bool>,
    /// 21 or 22 for a spoiled message, else 0.
    pub number: u8,
    pub taken: usize,
}

/// A stream drawn from messages, and what must be told of it.
#[derive(Clone, Debug, Default)]
pub struct Drawn {
    pub samples: Vec<u8>,
    pub sayings: Vec<Saying>,
}

impl Drawn {
    fn run(&mut self, sample: u8, length: usize) {
        self.samples.resize(self.samples.len() + length, sample);
    }

    /// A pulse of an allowed length with idle after it that closes nothing; none for gap 1.
    fn pulse(&mut self, random: &mut Random, times: PulseTimes, mark: bool) {
        let line = if mark { 1 } else { 2 };
        self.run(
            line,
            times.least + random.below(times.most - times.least + 1),
        );
        self.idle(random, times);
    }

    /// Idle samples at the end.
    fn idle_at_end(&self) -> usize {
        let from_end = self.samples.iter().rev();
        from_end.take_while(|&&sample| sample == 0).count()
    }

    /// Idle of 1 to gap - 1 samples with those that stand there already, short runs mostly.
    fn idle(&mut self, random: &mut Random, times: PulseTimes) {
        let most = (times.gap - 1).saturating_sub(self.idle_at_end());
        let length = match random.below(4) {
            0 => most,
            1 => 1 + random.below(most.max(1)),
            _ => 1 + random.below(most.clamp(1, 6)),
        };
        self.run(0, length.min(most));
    }

    /// The gap, which closes at its last sample, and more idle after it.
    fn close(&mut self, random: &mut Random, times: PulseTimes, bits: Vec<bool>, number: u8) {
        // Idle that stands at the end already is part of the gap.
        self.run(0, times.gap - self.idle_at_end());
        let taken = self.samples.len();
        self.sayings.push(Saying {
            bits,
            number,
            taken,
        });
        let more = [0, 1, times.gap, random.below(20)][random.below(4)];
        self.run(0, more.min(ENOUGH / 8));
    }

    pub(super) fn message(&mut self, random: &mut Random, times: PulseTimes) {
        let bits = bits(random, times);
        self.message_of(random, times, bits);
    }

    /// A message of these bits.
    pub fn message_of(&mut self, random: &mut Random, times: PulseTimes, bits: Vec<bool>) {
        for &mark in &bits {
            self.pulse(random, times, mark);
        }
        self.close(random, times, bits, 0);
    }

    /// The same, its pulses already drawn by somebody.
    pub fn message_as(
        &mut self,
        random: &mut Random,
        times: PulseTimes,
        bits: Vec<bool>,
        samples: &[u8],
    ) {
        self.samples.extend_from_slice(samples);
        self.close(random, times, bits, 0);
    }

    /// A message with damage in it, anything between two gaps.
    pub(super) fn spoiled(&mut self, random: &mut Random, times: PulseTimes) {
        let before = match times.gap {
            1 => Vec::new(),
            _ => bits(random, times),
        };
        self.spoiled_after(random, times, before);
    }

    /// The same after these bits, of which a gap of 1 allows none.
    pub fn spoiled_after(&mut self, random: &mut Random, times: PulseTimes, before: Vec<bool>) {
        let can_go_on = times.gap > 1;
        for mark in before {
            self.pulse(random, times, mark);
        }
        let mut number = self.damage(random, times);
        while can_go_on && !random.one_in(3) {
            self.idle(random, times);
            match random.below(4) {
                0 => {
                    let mark = random.coin();
                    self.pulse(random, times, mark);
                }
                1 => {
                    let (sample, length) = (1 + random.below(3) as u8, 1 + random.below(9));
                    self.run(sample, length);
                }
                2 if random.coin() => {
                    self.run(foreign(random), 1 + random.below(2));
                    number = 22;
                }
                _ => number = number.max(self.damage(random, times)),
            }
        }
        self.close(random, times, Vec::new(), number);
    }

    /// Pulses with idle between them that closes nothing, so many samples or more; none for gap 1.
    pub(super) fn restless(&mut self, random: &mut Random, times: PulseTimes, length: usize) {
        while times.gap > 1 && self.samples.len() < length {
            let mark = random.coin();
            self.pulse(random, times, mark);
        }
    }

    /// One thing that spoils; answers the number that it asks for.
    fn damage(&mut self, random: &mut Random, times: PulseTimes) -> u8 {
        let line = 1 + random.below(2) as u8;
        match random.below(6) {
            0 if times.least > 1 => self.run(line, 1 + random.below(times.least - 1)),
            0 | 1 => {
                // Too long by little, or by so much that a narrow count would come round again.
                let more = match random.below(40) {
                    0 => 65_536 - times.most + times.least,
                    1 => 1_024,
                    _ => 1 + random.below(3),
                };
                self.run(line, times.most + more);
            }
            2 => {
                self.run(line, 1 + random.below(times.most));
                self.run(3 - line, 1 + random.below(times.most));
            }
            3 if times.gap > 1 => {
                for _ in 0..65 {
                    self.pulse(random, times, line == 1);
                }
            }
            3 | 4 => self.run(3, 1 + random.below(3)),
            _ => {
                self.run(foreign(random), 1 + random.below(2));
                return 22;
            }
        }
        21
    }
}

/// Bits of a message: one alone if a gap of 1 closes it at once, few if pulses are long.
fn bits(random: &mut Random, times: PulseTimes) -> Vec<bool> {
    let most = match times {
        PulseTimes { gap: 1, .. } => 1,
        PulseTimes { most: 100.., .. } => 6,
        _ => 64,
    };
    let count = match random.below(4) {
        0 => most,
        1 => 1,
        _ => 1 + random.below(most),
    };
    (0..count).map(|_| random.coin()).collect()
}

/// A byte above 3.
fn foreign(random: &mut Random) -> u8 {
    match random.below(4) {
        0 => 4,
        1 => 255,
        _ => 4 + random.below(252) as u8,
    }
}

/// A stream of messages, whole and spoiled, begun after any idle time.
pub fn drawn(random: &mut Random, times: PulseTimes) -> Drawn {
    let mut drawn = Drawn::default();
    drawn.run(0, random.below(12));
    while drawn.samples.len() < ENOUGH && !random.one_in(12) {
        if random.one_in(3) {
            drawn.spoiled(random, times);
        } else {
            drawn.message(random, times);
        }
    }
    drawn
}

/// Samples of any kind: drawn messages with samples changed, put in or lost, and noise.
pub fn samples(random: &mut Random, times: PulseTimes) -> Vec<u8> {
    let mut samples = if random.one_in(4) {
        Vec::new()
    } else {
        drawn(random, times).samples
    };
    for _ in 0..random.below(6) {
        let place = random.below(samples.len() + 1);
        match random.below(4) {
            0 if place < samples.len() => samples[place] = sample(random),
            1 if place < samples.len() => drop(samples.remove(place)),
            2 => samples.insert(place, sample(random)),
            _ => {
                let noise: Vec<u8> = (0..random.below(40)).map(|_| sample(random)).collect();
                samples.splice(place..place, noise);
            }
        }
    }
    samples
}

/// A sample: idle, one line, both, or now and then a byte above 3.
fn sample(random: &mut Random) -> u8 {
    match random.below(32) {
        0 => foreign(random),
        1..=4 => 3,
        5..=20 => 0,
        n => 1 + (n & 1) as u8,
    }
}

/// The ends of batches of a stream of so many samples; the last is its end, some are empty.
pub fn batches(random: &mut Random, length: usize) -> Vec<usize> {
    // Samples one or two at a time where the stream is short; never batches without number.
    let longest = match random.below(4) {
        0 => 2,
        1 => 9,
        2 => 400,
        _ => length + 1,
    };
    let longest = longest.max(length / 400);
    let mut ends = Vec::new();
    let mut end = 0;
    while end < length {
        end += random.below(longest + 1);
        ends.push(end.min(length));
    }
    ends.push(length);
    ends
}

#[cfg(test)]
mod tests {
    use super::*;
    use crate::random::SEED;
    use crate::reading::lines::hear;

    #[test]
    fn streams_have_messages_of_all_lengths_and_both_refusals() {
        let mut random = Random::new(SEED, 0);
        let mut lengths = [0u32; 65];
        let mut numbers = [0u32; 23];
        for _ in 0..2_000 {
            let times = pulse_times(&mut random);
            for saying in drawn(&mut random, times).sayings {
                lengths[saying.bits.len()] += 1;
                numbers[usize::from(saying.number)] += 1;
            }
        }
        assert!(lengths.iter().all(|&times| times > 10), "{lengths:?}");
        assert!(numbers[21] > 500 && numbers[22] > 500, "{numbers:?}");
    }

    #[test]
    fn bad_times_are_refused_and_good_ones_are_not() {
        let mut random = Random::new(SEED, 0);
        for _ in 0..10_000 {
            let told = |times| hear(SoFar::default(), times, &[]).number;
            assert_eq!(told(pulse_times(&mut random)), 0);
            assert_eq!(told(bad_times(&mut random)), 20);
        }
    }

    #[test]
    fn states_are_of_every_kind() {
        let mut random = Random::new(SEED, 0);
        let times = pulse_times(&mut random);
        let mut kinds = [0u32; 5];
        for _ in 0..10_000 {
            let state = so_far(&mut random);
            let meant = hear(state, times, &[]).so_far;
            let kind = match (meant.fault, meant.line, meant.count) {
                (0, 0, 0) => 0,
                (0, 0, _) => 1,
                (0, _, _) => 2,
                _ if meant == state => 3,
                _ => 4,
            };
            kinds[kind] += 1;
        }
        assert!(kinds.iter().all(|&times| times > 500), "{kinds:?}");
    }
}
