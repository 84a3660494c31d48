//! Times two pieces of work side by side.
//!
//! Both are run in turns within one run of the program, round after round, so that a change of
//! the machine's pace falls on both. The ratio told is the median of the rounds' own ratios.

use std::fmt::{self, Display};
use std::hint::black_box;
use std::time::{Duration, Instant};

/// What was measured of a pair.
#[derive(Clone, Debug)]
pub struct Timing {
    pub name: String,
    /// Nanoseconds of one item on the left, the median over the rounds.
    pub left: f64,
    /// The same on the right.
    pub right: f64,
    /// Left over right.
    pub ratio: f64,
}

impl Timing {
    /// The heading of a table of timings.
    pub fn heading(left: &str, right: &str) -> String {
        let (left, right) = (format!("{left}, ns"), format!("{right}, ns"));
        format!("{:<46} {left:>16} {right:>16} {:>7}", "", "ratio")
    }

    /// A row of the table in `docs/HOST.md`.
    pub fn row(&self) -> String {
        format!("| {} | {:.2} |", self.name, self.ratio)
    }
}

impl Display for Timing {
    fn fmt(&self, f: &mut fmt::Formatter) -> fmt::Result {
        let Timing {
            name,
            left,
            right,
            ratio,
        } = self;
        write!(f, "{name:<46} {left:>16.2} {right:>16.2} {ratio:>7.2}")
    }
}

/// How long is measured.
#[derive(Clone, Copy, Debug)]
pub struct Stopwatch {
    /// Rounds of which the median is taken.
    pub rounds: usize,
    /// The least time of one side in one round.
    pub least: Duration,
}

impl Stopwatch {
    /// Long enough for ratios that repeat to a hundredth or two on a quiet machine.
    pub fn usual() -> Stopwatch {
        Stopwatch {
            rounds: 151,
            least: Duration::from_micros(300),
        }
    }

    /// Times two pieces of work of `items` items each.
    pub fn pair(
        &self,
        name: &str,
        items: usize,
        mut left: impl FnMut(),
        mut right: impl FnMut(),
    ) -> Timing {
        // The first run of each warms the caches; the second tells how often to repeat.
        time(1, &mut left);
        time(1, &mut right);
        let faster = time(1, &mut left)
            .min(time(1, &mut right))
            .as_nanos()
            .max(1);
        let repeats = (self.least.as_nanos() / faster).clamp(1, 1 << 20) as u32;
        let (mut lefts, mut rights, mut ratios) = (Vec::new(), Vec::new(), Vec::new());
        for round in 0..self.rounds.max(1) {
            // Neither side is always the one that goes first.
            let (of_left, of_right) = if round % 2 == 0 {
                let of_left = time(repeats, &mut left);
                (of_left, time(repeats, &mut right))
            } else {
                let of_right = time(repeats, &mut right);
                (time(repeats, &mut left), of_right)
            };
            let each = f64::from(repeats) * items.max(1) as f64;
            lefts.push(of_left.as_nanos() as f64 / each);
            rights.push(of_right.as_nanos() as f64 / each);
            ratios.push(of_left.as_nanos() as f64 / of_right.as_nanos().max(1) as f64);
        }
        Timing {
            name: name.to_string(),
            left: median(lefts),
            right: median(rights),
            ratio: median(ratios),
        }
    }
}

fn time(repeats: u32, work: &mut impl FnMut()) -> Duration {
    let start = Instant::now();
    for _ in 0..repeats {
        black_box(&mut *work)();
    }
    start.elapsed()
}

fn median(mut numbers: Vec<f64>) -> f64 {
    numbers.sort_by(f64::total_cmp);
    numbers.get(numbers.len() / 2).copied().unwrap_or(0.0)
}

#[cfg(test)]
mod tests {
    use super::*;

    #[test]
    fn medians() {
        assert_eq!(median(vec![]), 0.0);
        assert_eq!(median(vec![3.0, 1.0, 2.0]), 2.0);
    }

    #[test]
    fn twice_the_work_takes_longer() {
        let work = |steps: u64| {
            move || {
                for step in 0..steps {
                    black_box(step);
                }
            }
        };
        let watch = Stopwatch {
            rounds: 15,
            least: Duration::from_micros(50),
        };
        let timing = watch.pair("work", 1, work(40_000), work(10_000));
        assert!(timing.ratio > 1.5, "{timing}");
    }
}
