//! Comparisons of two cores, written once for any two.
//!
//! Each comparison asks both cores the same questions and stops at the first answer, or byte, or
//! row in which they differ. The sweeps of [`cuts`] hold one core to the paper's demand on the
//! list instead. How much is asked stands in a [`Plan`]; what is asked depends on the seed alone,
//! not on the number of threads.

pub mod areas;
pub mod boards;
pub mod cuts;
pub mod drawings;
pub mod frames;
pub mod items;
pub mod joins;
pub mod lines;
pub mod pollings;
pub mod rounds;
pub mod sheets;
pub mod stores;
pub mod summaries;
pub mod way;

use crate::calls::Core;
use crate::random::SEED;
use std::fmt::{self, Debug, Display};
use std::sync::atomic::{AtomicBool, AtomicUsize, Ordering};
use std::sync::Mutex;
use std::thread;
use std::time::Instant;

/// How much the comparisons ask.
#[derive(Clone, Copy, Debug)]
pub struct Plan {
    /// Seed of all generators.
    pub seed: u64,
    /// Random and damaged replies to be read, with as many readings to be written.
    pub replies: usize,
    /// Sheets made by saves with cuts.
    pub honest_sheets: usize,
    /// Sheets that no recorder need have left.
    pub hostile_sheets: usize,
    /// Records of which every byte is changed to every value.
    pub changed_records: usize,
    /// Sequences of board calls.
    pub boards: usize,
    /// Saves of the month that are cut after each of their stores, from the first on.
    pub month_saves: usize,
    /// Sequences of saves, each cut anywhere, held to the list.
    pub cut_sequences: usize,
    /// States of the lines, each handed in with a few samples.
    pub line_states: usize,
    /// Streams of samples, heard in several batchings.
    pub streams: usize,
    /// Messages drawn from anywhere, and a tenth as many followed to their end.
    pub drawings: usize,
    /// Enraf records, of which every byte is changed to every value.
    pub changed_items: usize,
    /// Random and damaged records to be read, with as many items to be written.
    pub items: usize,
    /// Sites to be planned, with plans of a fitter for each.
    pub sites: usize,
    /// Sheets of which a summary is worked out.
    pub summarised: usize,
    /// Summaries handed in with a save.
    pub handed_in: usize,
    /// Histories of saves that keep a summary.
    pub summary_histories: usize,
    /// Summaries to be joined, two or three at a time.
    pub joins: usize,
    /// Rounds of any kind, and as many that are cut after every store.
    pub rounds: usize,
    pub cut_rounds: usize,
    /// Months of replies, from the lines to the listing.
    pub months: usize,
    /// Saves told as their stores, each on a sheet of its own.
    pub told_saves: usize,
    /// States of a round under way, and as many boards to begin from.
    pub pollings: usize,
    /// Whole rounds run against made-up transmitters, and half as many run in three batchings.
    pub polled_rounds: usize,
}

impl Plan {
    /// What the gate asks.
    pub fn full(seed: u64) -> Plan {
        Plan {
            seed,
            replies: 10_000_000,
            honest_sheets: 10_000,
            hostile_sheets: 10_000,
            changed_records: 200,
            boards: 8_000,
            month_saves: 1_860,
            cut_sequences: 15_000,
            line_states: 1_000_000,
            streams: 4_000,
            drawings: 200_000,
            changed_items: 400,
            items: 1_000_000,
            sites: 10_000,
            summarised: 20_000,
            handed_in: 300_000,
            summary_histories: 800,
            joins: 15_000,
            rounds: 100_000,
            cut_rounds: 10_000,
            months: 20_000,
            told_saves: 20_000,
            pollings: 100_000,
            polled_rounds: 2_000,
        }
    }

    /// Enough to see every comparison work, within a moment.
    pub fn short() -> Plan {
        Plan {
            seed: SEED,
            replies: 200_000,
            honest_sheets: 600,
            hostile_sheets: 600,
            changed_records: 10,
            boards: 400,
            month_saves: 60,
            cut_sequences: 400,
            line_states: 100_000,
            streams: 1_000,
            drawings: 20_000,
            changed_items: 40,
            items: 100_000,
            sites: 4_000,
            summarised: 1_000,
            handed_in: 20_000,
            summary_histories: 100,
            joins: 10_000,
            rounds: 10_000,
            cut_rounds: 2_000,
            months: 200,
            told_saves: 8_000,
            pollings: 20_000,
            polled_rounds: 200,
        }
    }
}

/// The first thing two cores differ in, or a core and the paper.
#[derive(Clone, Debug, PartialEq, Eq)]
pub struct Difference {
    /// What was asked.
    pub asked: String,
    /// The first core's answer, or the core's.
    pub left: String,
    /// The second core's answer, or what the paper asks for.
    pub right: String,
}

impl Display for Difference {
    fn fmt(&self, f: &mut fmt::Formatter) -> fmt::Result {
        // A whole list or board would fill screens.
        const ENOUGH: usize = 3_000;
        writeln!(f, "{:.ENOUGH$}", self.asked)?;
        writeln!(f, "    left  {:.ENOUGH$}", self.left)?;
        write!(f, "    right {:.ENOUGH$}", self.right)
    }
}

/// Bytes that are shown in hexadecimal.
#[derive(PartialEq, Eq)]
pub struct Hex<'a>(pub &'a [u8]);

impl Debug for Hex<'_> {
    fn fmt(&self, f: &mut fmt::Formatter) -> fmt::Result {
        write!(f, "{:02x?}", self.0)
    }
}

/// How many questions were asked, or the first difference.
pub type Verdict = Result<u64, Difference>;

/// Holds two values together; the question is only put into words if they differ.
#[inline]
pub fn same<T: PartialEq + Debug>(
    left: T,
    right: T,
    asked: impl FnOnce() -> String,
) -> Result<(), Difference> {
    if left == right {
        return Ok(());
    }
    Err(Difference {
        asked: asked(),
        left: format!("{left:?}"),
        right: format!("{right:?}"),
    })
}

/// Does `parts` pieces of work on all cores of the machine and adds up the questions asked. Of
/// several differences found, the one of the earliest part is told.
pub fn in_parts(parts: usize, work: impl Fn(usize) -> Verdict + Sync) -> Verdict {
    let next = AtomicUsize::new(0);
    let stop = AtomicBool::new(false);
    let asked = Mutex::new(0);
    let found: Mutex<Option<(usize, Difference)>> = Mutex::new(None);
    let worker = || {
        let mut mine = 0;
        while !stop.load(Ordering::Relaxed) {
            let part = next.fetch_add(1, Ordering::Relaxed);
            if part >= parts {
                break;
            }
            match work(part) {
                Ok(asked) => mine += asked,
                Err(difference) => {
                    stop.store(true, Ordering::Relaxed);
                    if let Ok(mut found) = found.lock() {
                        if found.as_ref().is_none_or(|(other, _)| part < *other) {
                            *found = Some((part, difference));
                        }
                    }
                }
            }
        }
        if let Ok(mut asked) = asked.lock() {
            *asked += mine;
        }
    };
    let threads = thread::available_parallelism().map_or(1, |n| n.get());
    thread::scope(|scope| {
        for _ in 1..threads.min(parts) {
            scope.spawn(worker);
        }
        worker();
    });
    match found.into_inner() {
        Ok(Some((_, difference))) => Err(difference),
        _ => Ok(asked.into_inner().unwrap_or(0)),
    }
}

/// One comparison with its name.
pub struct Check<L, R> {
    pub name: &'static str,
    pub run: fn(&L, &R, &Plan) -> Verdict,
}

/// A comparison and its name.
fn check<L, R>(name: &'static str, run: fn(&L, &R, &Plan) -> Verdict) -> Check<L, R> {
    Check { name, run }
}

/// Every comparison of document 01's calls.
pub fn checks<L: Core, R: Core>() -> Vec<Check<L, R>> {
    vec![
        check("polls, all", |l, r, _| frames::polls(l, r)),
        check("levels, all of all settings", |l, r, _| {
            frames::levels(l, r)
        }),
        check("level codes, all of all modes", |l, r, _| {
            frames::level_codes(l, r)
        }),
        check("temperatures, all of all settings", |l, r, _| {
            frames::temperatures(l, r)
        }),
        check("temperature codes, all", |l, r, _| {
            frames::temperature_codes(l, r)
        }),
        check("addresses, all codes at all polls", |l, r, _| {
            frames::addresses(l, r)
        }),
        check("counts and forms", |l, r, plan| {
            frames::counts(l, r, plan.seed)
        }),
        check("replies, random and damaged", |l, r, plan| {
            frames::replies(l, r, plan.seed, plan.replies)
        }),
        check("sizes of sheets", |l, r, plan| {
            sheets::sizes(l, r, plan.seed)
        }),
        check("honest sheets", |l, r, plan| {
            sheets::honest(l, r, plan.seed, plan.honest_sheets)
        }),
        check("hostile sheets", |l, r, plan| {
            sheets::hostile(l, r, plan.seed, plan.hostile_sheets)
        }),
        check("records with one byte changed", |l, r, plan| {
            sheets::changed_records(l, r, plan.seed, plan.changed_records)
        }),
        check("boards", |l, r, plan| {
            boards::sequences(l, r, plan.seed, plan.boards)
        }),
        check("month cut after every store, left", |l, _, plan| {
            cuts::month(l, plan.seed, plan.month_saves)
        }),
        check("month cut after every store, right", |_, r, plan| {
            cuts::month(r, plan.seed, plan.month_saves)
        }),
        check("saves cut anywhere, left", |l, _, plan| {
            cuts::sequences(l, plan.seed, plan.cut_sequences)
        }),
        check("saves cut anywhere, right", |_, r, plan| {
            cuts::sequences(r, plan.seed, plan.cut_sequences)
        }),
    ]
}

/// Runs those comparisons of two cores whose name has these words, telling of each as it ends.
/// Answers how many passed, and how many did not.
pub fn run<L, R>(
    checks: Vec<Check<L, R>>,
    left: &L,
    right: &R,
    plan: &Plan,
    only: &str,
) -> (usize, usize) {
    let (mut passed, mut failed) = (0, 0);
    for check in checks {
        if !check.name.contains(only) {
            continue;
        }
        let start = Instant::now();
        let verdict = (check.run)(left, right, plan);
        let seconds = start.elapsed().as_secs_f64();
        match verdict {
            Ok(asked) => {
                passed += 1;
                let name = check.name;
                println!("ok    {name:<36} {asked:>12} asked {seconds:>8.2} s");
            }
            Err(difference) => {
                failed += 1;
                println!("FAIL  {:<36} {seconds:>8.2} s", check.name);
                println!("  {difference}");
            }
        }
    }
    (passed, failed)
}
