//! Areas: nanoseconds of one site.

use super::{taken, Benchmarks};
use crate::calls::{Areas, Bare};
use crate::generate;
use crate::stopwatch::Timing;
use std::hint::black_box;

/// Sites of one case.
const SITES: usize = 64;

impl<L: Bare + Areas, R: Bare + Areas> Benchmarks<'_, L, R> {
    /// Sites of 60 to 120 transmitters, planned, and their plans checked.
    pub fn areas(&self, mut tell: impl FnMut(&Timing)) {
        let mut random = self.random();
        let mut sites = Vec::with_capacity(SITES);
        while sites.len() < SITES {
            let site = generate::site(&mut random);
            if let (60..=120, Ok(plan)) = (site.len(), self.right.plan_areas(&site)) {
                sites.push((site, plan.sizes().to_vec()));
            }
        }
        let (left, right) = (plans(self.left, &sites), plans(self.right, &sites));
        self.time(&mut tell, "plan the areas of a site", SITES, left, right);
        let (left, right) = (checks(self.left, &sites), checks(self.right, &sites));
        self.time(&mut tell, "check the areas of a site", SITES, left, right);
    }
}

fn plans<'a, C: Areas>(core: &'a C, sites: &'a [(Vec<u32>, Vec<u8>)]) -> impl FnMut() + 'a {
    move || {
        for (site, _) in sites {
            taken(core.plan_areas(black_box(site)));
        }
    }
}

fn checks<'a, C: Areas>(core: &'a C, sites: &'a [(Vec<u32>, Vec<u8>)]) -> impl FnMut() + 'a {
    move || {
        for (site, plan) in sites {
            taken(core.check_areas(black_box(site), black_box(plan)));
        }
    }
}
