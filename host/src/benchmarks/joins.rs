//! Joins: nanoseconds of one.

use super::{taken, Benchmarks};
use crate::calls::{Bare, Joins};
use crate::generate;
use crate::stopwatch::Timing;
use crate::types::summaries::Summary;
use std::hint::black_box;

/// Joins of one case.
const JOINS: usize = 64;

impl<L: Bare + Joins, R: Bare + Joins> Benchmarks<'_, L, R> {
    /// Pages of 20 to 30 lines that share most of their pairs.
    pub fn joins(&self, mut tell: impl FnMut(&Timing)) {
        let mut random = self.random();
        let mut pages = Vec::with_capacity(JOINS);
        while pages.len() < JOINS {
            let shares = generate::shares(&mut random, 2);
            let two = [0, 1].map(|n| generate::joinable(&mut random, &shares[n]));
            let large = two.iter().all(|page| page.count >= 20);
            if large && self.right.summary_join(&two[0], &two[1]).is_ok() {
                pages.push(two);
            }
        }
        let (left, right) = (joins(self.left, &pages), joins(self.right, &pages));
        self.time(&mut tell, "join two summaries", JOINS, left, right);
    }
}

fn joins<'a, C: Joins>(core: &'a C, pages: &'a [[Summary; 2]]) -> impl FnMut() + 'a {
    move || {
        for [one, other] in pages {
            taken(core.summary_join(black_box(one), black_box(other)));
        }
    }
}
