//! Rounds: nanoseconds of one round of 30 replies, beside the same saves made one by one.

use super::{taken, Benchmarks, SLOTS};
use crate::calls::{Bare, Core, Rounds, Summaries};
use crate::generate::{self, SaveCase};
use crate::stopwatch::Timing;
use crate::types::rounds::{Round, MOST_REPLIES};
use crate::types::summaries::Summary;
use crate::types::{BLANK, SLOT};
use std::hint::black_box;

impl<L: Bare + Rounds, R: Bare + Rounds + Summaries> Benchmarks<'_, L, R> {
    pub fn rounds(&self, mut tell: impl FnMut(&Timing)) {
        let mut random = self.random();
        let month = generate::month(&mut random);
        let cases = &month[..MOST_REPLIES];
        let round = generate::round_of(&mut random, cases);
        let sheet = vec![BLANK; SLOTS * SLOT];
        let left = saves(self.left, sheet.clone(), &round);
        let right = saves(self.right, sheet.clone(), &round);
        self.time(&mut tell, "save a round of 30 replies", 1, left, right);
        let left = one_by_one(self.left, sheet.clone(), cases);
        let right = one_by_one(self.right, sheet.clone(), cases);
        self.time(&mut tell, "the same 30 replies one by one", 1, left, right);
        let blank = Summary::default();
        let left = pages(self.left, sheet.clone(), &round, blank, 0);
        let right = pages(self.right, sheet, &round, blank, 0);
        self.time(&mut tell, "save a round with a summary", 1, left, right);
        // The last round of a month: the summary has a line for nearly every reply.
        let used = SLOTS - MOST_REPLIES;
        let sheet = self.sheet(SLOTS, used);
        let page = self.right.summary_of(&sheet).unwrap_or_default();
        let left = pages(self.left, sheet.clone(), &round, page, used);
        let right = pages(self.right, sheet, &round, page, used);
        let name = "save a round with a summary, nearly full";
        self.time(&mut tell, name, 1, left, right);
    }
}

/// The slots of a round behind those used, made blank again for the next.
fn blank(sheet: &mut [u8], used: usize) {
    sheet[used * SLOT..(used + MOST_REPLIES) * SLOT].fill(BLANK);
}

fn saves<'a, C: Rounds>(core: &'a C, mut sheet: Vec<u8>, round: &'a Round) -> impl FnMut() + 'a {
    move || {
        taken(core.save_round(black_box(&mut sheet), black_box(round), usize::MAX));
        blank(&mut sheet, 0);
    }
}

fn one_by_one<'a, C: Core>(
    core: &'a C,
    mut sheet: Vec<u8>,
    cases: &'a [SaveCase],
) -> impl FnMut() + 'a {
    move || {
        for case in cases {
            let entry = black_box(case).entry();
            taken(core.save(black_box(&mut sheet), &entry, usize::MAX));
        }
        blank(&mut sheet, 0);
    }
}

fn pages<'a, C: Rounds>(
    core: &'a C,
    mut sheet: Vec<u8>,
    round: &'a Round,
    page: Summary,
    used: usize,
) -> impl FnMut() + 'a {
    move || {
        let (sheet_lent, page) = (black_box(&mut sheet), black_box(&page));
        taken(core.summary_save_round(sheet_lent, page, black_box(round), usize::MAX));
        blank(&mut sheet, used);
    }
}
