//! Saves told as their stores: nanoseconds of one, beside the save itself.

use super::{taken, Benchmarks, SLOTS};
use crate::calls::{Bare, Stores};
use crate::generate::{self, SaveCase};
use crate::stopwatch::Timing;
use std::hint::black_box;

impl<L: Bare + Stores, R: Bare + Stores> Benchmarks<'_, L, R> {
    pub fn stores(&self, mut tell: impl FnMut(&Timing)) {
        let month = generate::month(&mut self.random());
        let kinds = [
            ("empty", 0),
            ("half full", SLOTS / 2),
            ("nearly full", SLOTS - 1),
        ];
        for (kind, used) in kinds {
            let sheet = self.sheet(SLOTS, used);
            let left = told(self.left, &sheet, &month);
            let right = told(self.right, &sheet, &month);
            let name = format!("tell a save's stores, {kind} sheet");
            self.time(&mut tell, &name, month.len(), left, right);
        }
    }
}

fn told<'a, C: Stores>(core: &'a C, sheet: &'a [u8], month: &'a [SaveCase]) -> impl FnMut() + 'a {
    move || {
        for case in month {
            taken(core.save_stores(black_box(sheet), &black_box(case).entry()));
        }
    }
}
