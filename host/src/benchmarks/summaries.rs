//! Summaries: one worked out from a sheet, beside the listing's walk over the same; one save.

use super::{taken, Benchmarks, SLOTS};
use crate::calls::{Bare, Summaries};
use crate::generate::{self, SaveCase};
use crate::stopwatch::Timing;
use crate::types::summaries::Summary;
use crate::types::{BLANK, SLOT};
use std::hint::black_box;

impl<L: Bare + Summaries, R: Bare + Summaries> Benchmarks<'_, L, R> {
    pub fn summaries(&self, mut tell: impl FnMut(&Timing)) {
        let sheet = self.sheet(SLOTS, SLOTS);
        let (left, right) = (works_out(self.left, &sheet), works_out(self.right, &sheet));
        let name = format!("summary of a full sheet of {SLOTS} slots");
        self.time(&mut tell, &name, 1, left, right);
        self.lists(&mut tell, &[SLOTS]);
        let month = generate::month(&mut self.random());
        let page = self.right.summary_of(&sheet).unwrap_or_default();
        let left = saves(self.left, &page, &month);
        let right = saves(self.right, &page, &month);
        self.time(
            &mut tell,
            "save with a summary of 30 lines",
            month.len(),
            left,
            right,
        );
    }
}

fn works_out<'a, C: Summaries>(core: &'a C, sheet: &'a [u8]) -> impl FnMut() + 'a {
    move || {
        taken(core.summary_of(black_box(sheet)));
    }
}

/// Every save finds one blank slot, which costs both sides the same to make.
fn saves<'a, C: Summaries>(
    core: &'a C,
    page: &'a Summary,
    month: &'a [SaveCase],
) -> impl FnMut() + 'a {
    move || {
        for case in month {
            let mut slot = [BLANK; SLOT];
            let entry = black_box(case).entry();
            let page = black_box(page);
            taken(core.summary_save(black_box(&mut slot), page, &entry, usize::MAX));
        }
    }
}
