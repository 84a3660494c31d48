//! The lines heard by runs: the samples are cut into runs of one kind, a word of eight at a time,
//! and each run is judged as a whole.

use super::word::past;
use super::IndependentReading;
use crate::calls::Lines;
use crate::types::lines::{LinesTold, PulseTimes, SoFar};

/// The longest pulse and the longest gap that may be asked for.
const LONGEST_PULSE: usize = 1_000;
const LONGEST_GAP: usize = 10_000;
/// The first length that is too long for every pulse; a stuck line is counted no further.
const TOO_LONG: u32 = LONGEST_PULSE as u32 + 1;
/// Most bits of a message.
const MOST_BITS: u16 = 64;

const BAD_TIMES: u8 = 20;
const SPOILED: u8 = 21;
const FOREIGN: u8 = 22;

impl Lines for IndependentReading {
    // Kept out of line, as a call of the archive is.
    #[inline(never)]
    fn hear_lines(&self, so_far: SoFar, times: PulseTimes, samples: &[u8]) -> LinesTold {
        hear(so_far, times, samples)
    }
}

/// What stands before the next run.
#[derive(Clone, Copy)]
enum Before {
    /// Nothing is open: the beginning, or the idle time since the last message.
    Nothing,
    /// So many idle samples, with bits heard before them.
    Idle(u32),
    /// One line low for so many samples, with idle before.
    Pulse { line: u8, length: u32 },
    /// A spoiled message by its number, and the idle samples since.
    Spoiled { number: u8, idle: u32 },
}

/// The bits of the open message and what stands after them.
struct Ear {
    bits: u64,
    count: u16,
    before: Before,
}

/// Hears samples up to the one that closes a message. Refusals: 20, asked first; 22, 21.
pub fn hear(so_far: SoFar, times: PulseTimes, samples: &[u8]) -> LinesTold {
    let told = |so_far, taken| LinesTold {
        so_far,
        taken,
        message: [0; 8],
        count: 0,
        number: 0,
    };
    if !good(times) {
        return LinesTold {
            number: BAD_TIMES,
            ..told(so_far, 0)
        };
    }
    let mut ear = Ear::meant(so_far);
    let mut taken = 0;
    while let Some(&sample) = samples.get(taken) {
        let run = if sample == 0 {
            ear.end_pulse(times);
            let wanted = ear.wanted(times.gap);
            let run = run_of(&samples[taken..samples.len().min(taken.saturating_add(wanted))]);
            if run == wanted {
                return ear.closed(told(SoFar::default(), taken + run));
            }
            ear.idle(run as u32);
            run
        } else {
            let run = run_of(&samples[taken..]);
            ear.low(sample, run.min(TOO_LONG as usize) as u32);
            run
        };
        taken += run;
    }
    told(ear.left(), taken)
}

/// The state that a state stands for: itself where calls leave it, else a spoiled message's.
pub(super) fn meant(so_far: SoFar) -> SoFar {
    Ear::meant(so_far).left()
}

/// Whether the timing numbers are ones that may be asked for.
fn good(times: PulseTimes) -> bool {
    let PulseTimes { least, most, gap } = times;
    1 <= least && least <= most && most <= LONGEST_PULSE && (1..=LONGEST_GAP).contains(&gap)
}

impl Ear {
    /// What a state stands for. One that no call leaves is a spoiled message, with no idle heard.
    fn meant(so_far: SoFar) -> Ear {
        let SoFar {
            bits,
            run,
            count,
            line,
            fault,
        } = so_far;
        let in_form = count <= MOST_BITS && bits & past(usize::from(count)) == 0;
        let idle_fits = run < LONGEST_GAP as u32;
        let before = match (fault, line) {
            (0, 0) if so_far == SoFar::default() => Before::Nothing,
            (0, 0) if in_form && count > 0 && run > 0 && idle_fits => Before::Idle(run),
            (0, 1 | 2) if in_form && 0 < run && run <= TOO_LONG => {
                Before::Pulse { line, length: run }
            }
            (SPOILED | FOREIGN, 0) if bits == 0 && count == 0 && idle_fits => Before::Spoiled {
                number: fault,
                idle: run,
            },
            _ => return Ear::spoiled(SPOILED, 0),
        };
        Ear {
            bits,
            count,
            before,
        }
    }

    fn spoiled(number: u8, idle: u32) -> Ear {
        Ear {
            bits: 0,
            count: 0,
            before: Before::Spoiled { number, idle },
        }
    }

    /// The state that stands for this.
    fn left(&self) -> SoFar {
        let (line, run, fault) = match self.before {
            Before::Nothing => (0, 0, 0),
            Before::Idle(run) => (0, run, 0),
            Before::Pulse { line, length } => (line, length, 0),
            Before::Spoiled { number, idle } => (0, idle, number),
        };
        SoFar {
            bits: self.bits,
            run,
            count: self.count,
            line,
            fault,
        }
    }

    /// Idle comes: a pulse that was going has ended, and is a bit or spoils.
    #[inline]
    fn end_pulse(&mut self, times: PulseTimes) {
        let Before::Pulse { line, length } = self.before else {
            return;
        };
        let fits = times.least <= length as usize && length as usize <= times.most;
        if fits && self.count < MOST_BITS {
            self.bits |= u64::from(line == 1) << (63 - self.count);
            self.count += 1;
            self.before = Before::Idle(0);
        } else {
            *self = Ear::spoiled(SPOILED, 0);
        }
    }

    /// How many idle samples from here close what is open; without an end if nothing is.
    #[inline]
    fn wanted(&self, gap: usize) -> usize {
        match self.before {
            Before::Idle(idle) | Before::Spoiled { idle, .. } => {
                gap.saturating_sub(idle as usize).max(1)
            }
            _ => usize::MAX,
        }
    }

    /// Idle samples that close nothing.
    #[inline]
    fn idle(&mut self, run: u32) {
        if let Before::Idle(idle) | Before::Spoiled { idle, .. } = &mut self.before {
            *idle += run;
        }
    }

    /// A run of samples that are not idle; past [`TOO_LONG`] its length does not matter.
    #[inline]
    fn low(&mut self, sample: u8, run: u32) {
        self.before = match (self.before, sample) {
            (_, 4..) => Before::Spoiled {
                number: FOREIGN,
                idle: 0,
            },
            (Before::Spoiled { number, .. }, _) => Before::Spoiled { number, idle: 0 },
            (Before::Nothing | Before::Idle(_), 1 | 2) => Before::Pulse {
                line: sample,
                length: run,
            },
            (Before::Pulse { line, length }, _) if line == sample => Before::Pulse {
                line,
                length: (length + run).min(TOO_LONG),
            },
            _ => Before::Spoiled {
                number: SPOILED,
                idle: 0,
            },
        };
        if let Before::Spoiled { .. } = self.before {
            (self.bits, self.count) = (0, 0);
        }
    }

    /// What is told at a gap.
    fn closed(&self, nothing: LinesTold) -> LinesTold {
        match self.before {
            Before::Spoiled { number, .. } => LinesTold { number, ..nothing },
            _ => LinesTold {
                message: self.bits.to_be_bytes(),
                count: self.count as u8,
                ..nothing
            },
        }
    }
}

/// How many samples from the first on are the same; 0 if there is none.
#[inline]
pub(super) fn run_of(samples: &[u8]) -> usize {
    const BLOCK: usize = 64;
    let Some(&first) = samples.first() else {
        return 0;
    };
    let like = u64::from_le_bytes([first; 8]);
    let differs = |part: &[u8]| {
        let mut word = [0; 8];
        word.copy_from_slice(part);
        u64::from_le_bytes(word) ^ like
    };
    let mut run = 0;
    // A pulse ends within the first word or two; a stuck or an idle line is passed by blocks.
    while let Some(part) = samples.get(run..run + 8) {
        let differs = differs(part);
        if differs != 0 {
            return run + differs.trailing_zeros() as usize / 8;
        }
        run += 8;
        let blocks = samples[run..].chunks_exact(BLOCK);
        let all_like = |block: &&[u8]| block.iter().fold(0, |all, &one| all | (one ^ first)) == 0;
        run += BLOCK * blocks.take_while(all_like).count();
    }
    let end = samples[run..].iter().take_while(|&&sample| sample == first);
    run + end.count()
}

#[cfg(test)]
mod tests {
    use super::*;

    /// Runs of samples, put end to end.
    fn runs(runs: &[(u8, usize)]) -> Vec<u8> {
        let run = |&(sample, length): &(u8, usize)| vec![sample; length];
        runs.iter().flat_map(run).collect()
    }

    #[test]
    fn a_run_is_as_long_as_it_is() {
        for length in 1..300 {
            for after in 0..20 {
                let samples = runs(&[(2, length), (0, after)]);
                assert_eq!(run_of(&samples), length);
            }
        }
        assert_eq!(run_of(&[]), 0);
    }
}
