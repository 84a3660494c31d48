//! The benchmarks, for any two cores.
//!
//! Each case prepares its inputs once, gives both sides the same, and times a walk over all of
//! them; the compiler sees neither the inputs nor what becomes of the answers. What is timed is a
//! call of each side: the library's calls are in an archive, and those of the independent reading
//! are never put in place. An answer that is a struct is left as each side gives it.

mod areas;
mod drawings;
mod items;
mod joins;
pub mod lines;
mod modes;
mod pollings;
mod rounds;
mod stores;
mod summaries;

use crate::calls::{Bare, Core};
use crate::generate::{self, ReplyCase, SaveCase};
use crate::random::Random;
use crate::stopwatch::{Stopwatch, Timing};
use crate::types::{Poll, Reading, Row, Temperature, BLANK, LARGEST_SHEET, MARK_6500, ROWS, SLOT};
use std::hint::black_box;

/// Inputs of one case.
const POOL: usize = 1_024;
/// Slots of the largest sheet.
const SLOTS: usize = LARGEST_SHEET / SLOT;

/// Two cores and the watch that times them.
pub struct Benchmarks<'a, L: Core, R: Core> {
    pub left: &'a L,
    pub right: &'a R,
    pub watch: Stopwatch,
    pub seed: u64,
    /// Only cases whose name has these words; all of them if it is empty.
    pub only: String,
}

impl<L: Bare, R: Bare> Benchmarks<'_, L, R> {
    /// Every case, each told as soon as it is measured.
    pub fn all(&self, mut tell: impl FnMut(&Timing)) {
        self.polls(&mut tell);
        self.replies(&mut tell);
        self.saves(&mut tell, &[SLOTS]);
        self.looks(&mut tell);
        self.boards(&mut tell);
        self.lists(&mut tell, &[SLOTS]);
    }

    /// How saving and listing grow with the sheet.
    pub fn growth(&self, mut tell: impl FnMut(&Timing)) {
        let sizes = [64, 512, SLOTS];
        self.saves(&mut tell, &sizes);
        self.lists(&mut tell, &sizes);
    }

    /// Times one case, unless it is not asked for.
    fn time(
        &self,
        tell: &mut impl FnMut(&Timing),
        name: &str,
        items: usize,
        left: impl FnMut(),
        right: impl FnMut(),
    ) {
        if name.contains(&self.only) {
            tell(&self.watch.pair(name, items, left, right));
        }
    }

    fn random(&self) -> Random {
        Random::new(self.seed, 0)
    }

    fn polls(&self, tell: &mut impl FnMut(&Timing)) {
        let mut random = self.random();
        let polls: Vec<Poll> = (0..POOL)
            .map(|_| Poll {
                address: generate::address(&mut random),
                raise: random.coin(),
                reset: random.coin(),
            })
            .collect();
        let (left, right) = (poll_trip(self.left, &polls), poll_trip(self.right, &polls));
        self.time(tell, "poll, written and read", POOL, left, right);
    }

    fn replies(&self, tell: &mut impl FnMut(&Timing)) {
        for count in [40, 56] {
            for good in [true, false] {
                let pool = self.reply_pool(count, good);
                let (left, right) = (reads(self.left, &pool), reads(self.right, &pool));
                let kind = if good { "good" } else { "faulty" };
                let name = format!("read a reply, {count} bits, {kind}");
                self.time(tell, &name, POOL, left, right);
                let left = reads_by_pairs(self.left, &pool);
                let right = reads_by_pairs(self.right, &pool);
                let name = format!("read a reply by pairs, {count} bits, {kind}");
                self.time(tell, &name, POOL, left, right);
            }
        }
        for (count, absent) in [(40, true), (56, false)] {
            let pool = self.reading_pool(absent);
            let (left, right) = (writes(self.left, &pool), writes(self.right, &pool));
            let name = format!("write a reply, {count} bits");
            self.time(tell, &name, POOL, left, right);
        }
    }

    /// Replies of all settings and this count that are read, or that have a fault of 1 to 9.
    fn reply_pool(&self, count: usize, good: bool) -> Vec<ReplyCase> {
        let mut random = self.random();
        let mut pool = Vec::with_capacity(POOL);
        while pool.len() < POOL {
            let case = generate::damaged_reply(&mut random);
            let answer =
                self.right
                    .read_reply(case.settings, case.address, case.count, case.reply());
            let wanted = match answer {
                Ok(_) => good,
                Err(fault) => !good && fault.number() <= 9,
            };
            if case.count == count && wanted {
                pool.push(case);
            }
        }
        pool
    }

    fn reading_pool(&self, absent: bool) -> Vec<(u8, u16, Reading)> {
        let mut random = self.random();
        let mut pool = Vec::with_capacity(POOL);
        while pool.len() < POOL {
            let settings = random.below(16) as u8;
            let reading = generate::reading(&mut random, settings);
            if (reading.temperature == Temperature::Absent) == absent {
                pool.push((settings, generate::address(&mut random), reading));
            }
        }
        pool
    }

    fn saves(&self, tell: &mut impl FnMut(&Timing), sizes: &[usize]) {
        let month = generate::month(&mut self.random());
        let month = &month[..POOL.min(month.len())];
        for &slots in sizes {
            for (used, kind) in [(0, "empty"), (slots - 1, "nearly full")] {
                let sheet = self.sheet(slots, used);
                let left = saves(self.left, sheet.clone(), used, month);
                let right = saves(self.right, sheet, used, month);
                let name = format!("save into {slots} slots, {kind}");
                self.time(tell, &name, month.len(), left, right);
            }
        }
    }

    /// A sheet with its first slots full of a month's records.
    fn sheet(&self, slots: usize, used: usize) -> Vec<u8> {
        let month = generate::month(&mut self.random());
        let mut sheet = vec![BLANK; slots * SLOT];
        let saves = month.iter().cycle().take(used);
        for (slot, case) in sheet.chunks_exact_mut(SLOT).zip(saves) {
            let _ = self.right.save(slot, &case.entry(), usize::MAX);
        }
        sheet
    }

    fn looks(&self, tell: &mut impl FnMut(&Timing)) {
        for (used, kind) in [(SLOTS, "a record"), (0, "blank")] {
            let sheet = self.sheet(SLOTS, used);
            let (left, right) = (looks(self.left, &sheet), looks(self.right, &sheet));
            let name = format!("look at a slot, {kind}");
            self.time(tell, &name, SLOTS, left, right);
        }
    }

    fn boards(&self, tell: &mut impl FnMut(&Timing)) {
        let mut random = self.random();
        let mut rows = Vec::new();
        for place in 0..ROWS {
            rows.push(Row {
                in_use: true,
                address: (place * 33) as u16,
                settings: random.below(16) as u8,
                ..Row::default()
            });
        }
        let replies: Vec<ReplyCase> = (0..POOL)
            .map(|place| {
                let row = &rows[place * 7 % ROWS];
                generate::good_reply(&mut random, row.settings, row.address)
            })
            .collect();
        let left = hears(self.left, &rows, &replies);
        let right = hears(self.right, &rows, &replies);
        self.time(tell, "hear a reply, 30 rows", POOL, left, right);
        let addresses: Vec<u16> = replies.iter().map(|case| case.address).collect();
        let left = row_polls(self.left, &rows, &addresses);
        let right = row_polls(self.right, &rows, &addresses);
        self.time(tell, "poll of a row, 30 rows", POOL, left, right);
        let left = look_ups(self.left, &rows, &addresses);
        let right = look_ups(self.right, &rows, &addresses);
        self.time(tell, "look up a row, 30 rows", POOL, left, right);
        let left = re_enrolments(self.left, &rows, &addresses);
        let right = re_enrolments(self.right, &rows, &addresses);
        self.time(
            tell,
            "remove a row and enrol it, 30 rows",
            POOL,
            left,
            right,
        );
    }

    fn lists(&self, tell: &mut impl FnMut(&Timing), sizes: &[usize]) {
        for &slots in sizes {
            let sheet = self.sheet(slots, slots);
            let (left, right) = (lists(self.left, &sheet), lists(self.right, &sheet));
            let name = format!("list a full sheet of {slots} slots");
            self.time(tell, &name, 1, left, right);
        }
    }
}

/// Takes an answer where it stands: handed on as a value it would be copied, and the copy timed with
/// the call.
#[inline(always)]
fn taken<T>(answer: T) {
    black_box(&answer);
}

fn poll_trip<'a, C: Bare>(core: &'a C, polls: &'a [Poll]) -> impl FnMut() + 'a {
    move || {
        let mut out = [0; 2];
        for poll in polls {
            taken(core.write_poll(black_box(poll), black_box(&mut out)));
            taken(core.bare_read_poll(black_box(&out)));
        }
    }
}

fn reads<'a, C: Bare>(core: &'a C, pool: &'a [ReplyCase]) -> impl FnMut() + 'a {
    move || {
        for case in pool {
            let case = black_box(case);
            taken(core.bare_read_reply(case.settings, case.address, case.count, case.reply()));
        }
    }
}

/// By the second reader. The independent reading has one reader, which goes by pairs of digits.
fn reads_by_pairs<'a, C: Bare>(core: &'a C, pool: &'a [ReplyCase]) -> impl FnMut() + 'a {
    move || {
        for case in pool {
            let case = black_box(case);
            let (settings, address) = (case.settings, case.address);
            taken(core.bare_read_reply_by_pairs(settings, address, case.count, case.reply()));
        }
    }
}

fn writes<'a, C: Core>(core: &'a C, pool: &'a [(u8, u16, Reading)]) -> impl FnMut() + 'a {
    move || {
        let mut out = [0; 7];
        for case in pool {
            let (settings, address, reading) = black_box(case);
            let out = black_box(&mut out);
            taken(core.write_reply(*settings, *address, reading, out));
        }
    }
}

/// Every save finds the sheet as it was: the slot is made blank again, which costs both sides the
/// same two or three stores of the machine.
fn saves<'a, C: Core>(
    core: &'a C,
    mut sheet: Vec<u8>,
    place: usize,
    month: &'a [SaveCase],
) -> impl FnMut() + 'a {
    move || {
        for case in month {
            let entry = black_box(case).entry();
            taken(core.save(black_box(&mut sheet), &entry, usize::MAX));
            if let Some(slot) = sheet.chunks_exact_mut(SLOT).nth(place) {
                slot.fill(BLANK);
            }
        }
    }
}

fn looks<'a, C: Bare>(core: &'a C, sheet: &'a [u8]) -> impl FnMut() + 'a {
    move || {
        for slot in 0..sheet.len() / SLOT {
            taken(core.bare_look(black_box(sheet), slot));
        }
    }
}

fn hears<'a, C: Core>(core: &'a C, rows: &[Row], replies: &'a [ReplyCase]) -> impl FnMut() + 'a {
    let mut rows: Vec<C::Row> = rows.iter().map(|row| core.row(row)).collect();
    move || {
        for (minute, case) in replies.iter().enumerate() {
            let case = black_box(case);
            let rows = black_box(&mut rows);
            let minute = minute as u32;
            taken(core.hear(rows, minute, case.address, case.count, case.reply()));
        }
    }
}

/// Every address looked up.
fn look_ups<'a, C: Bare>(core: &'a C, rows: &[Row], addresses: &'a [u16]) -> impl FnMut() + 'a
where
    C::Row: 'a,
{
    let rows: Vec<C::Row> = rows.iter().map(|row| core.row(row)).collect();
    move || {
        for &address in addresses {
            taken(core.bare_look_up(black_box(&rows), address));
        }
    }
}

/// Every address removed and enrolled again: two calls of a board that is full before and after.
fn re_enrolments<'a, C: Core>(core: &'a C, rows: &[Row], addresses: &'a [u16]) -> impl FnMut() + 'a
where
    C::Row: 'a,
{
    let mut rows: Vec<C::Row> = rows.iter().map(|row| core.row(row)).collect();
    move || {
        for &address in addresses {
            taken(core.remove(black_box(&mut rows), address));
            taken(core.enrol(black_box(&mut rows), 1, address, 0));
        }
    }
}

/// Each row is a 6500 and is asked to raise.
fn row_polls<'a, C: Core>(core: &'a C, rows: &[Row], addresses: &'a [u16]) -> impl FnMut() + 'a {
    let marked = |row: &Row| Row {
        gauge: MARK_6500,
        ..*row
    };
    let rows: Vec<C::Row> = rows.iter().map(|row| core.row(&marked(row))).collect();
    move || {
        let mut out = [0; 2];
        for &address in addresses {
            let rows = black_box(&rows);
            taken(core.poll_row(rows, address, 1, 0, black_box(&mut out)));
        }
    }
}

fn lists<'a, C: Core>(core: &'a C, sheet: &'a [u8]) -> impl FnMut() + 'a {
    let mut text = Vec::new();
    move || {
        text.clear();
        core.list(black_box(sheet), &mut text);
        black_box(&text);
    }
}

#[cfg(test)]
mod tests {
    use super::*;
    use crate::reading::IndependentReading;
    use std::time::Duration;

    /// Every case in one round, however short, with one side on both.
    pub(super) fn at_once() -> Benchmarks<'static, IndependentReading, IndependentReading> {
        Benchmarks {
            left: &IndependentReading,
            right: &IndependentReading,
            watch: Stopwatch {
                rounds: 1,
                least: Duration::ZERO,
            },
            seed: 0,
            only: String::new(),
        }
    }

    /// Each case of the requests runs, with one side on both.
    #[test]
    fn every_case_of_the_requests_is_timed() {
        let benchmarks = at_once();
        let mut names = Vec::new();
        let mut tell = |timing: &Timing| {
            assert!(timing.left > 0.0 && timing.right > 0.0, "{timing}");
            names.push(timing.name.clone());
        };
        benchmarks.lines(&mut tell);
        benchmarks.drawings(&mut tell);
        benchmarks.pollings(&mut tell);
        benchmarks.items(&mut tell);
        benchmarks.areas(&mut tell);
        benchmarks.summaries(&mut tell);
        benchmarks.joins(&mut tell);
        benchmarks.rounds(&mut tell);
        benchmarks.stores(&mut tell);
        assert_eq!(names.len(), 31, "{names:#?}");
    }
}
