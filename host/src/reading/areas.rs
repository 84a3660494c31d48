//! Areas by running totals: what lies between two places of the cable is the difference of two
//! totals, and the end of the longest area is found by halving.

use super::IndependentReading;
use crate::calls::Areas;
use crate::types::areas::{
    AreaPlan, MOST_AREAS, MOST_FEET, MOST_IN_AREA, MOST_TENTHS, MOST_TRANSMITTERS,
};
use crate::types::{Answer, Fault};

impl Areas for IndependentReading {
    // Kept out of line, as calls of the archive are.
    #[inline(never)]
    fn plan_areas(&self, site: &[u32]) -> Answer<AreaPlan> {
        plan(site)
    }

    #[inline(never)]
    fn check_areas(&self, site: &[u32], plan: &[u8]) -> Answer<()> {
        check(site, plan)
    }
}

/// Feet and tenths of an ohm of all transmitters before each place. Feet stand in the upper half;
/// the tenths of 120 transmitters do not reach it.
struct Cable {
    totals: [u64; MOST_TRANSMITTERS + 1],
    end: usize,
}

impl Cable {
    /// The totals of a site. Refusal: 34.
    fn of(site: &[u32]) -> Answer<Cable> {
        if site.len() > MOST_TRANSMITTERS {
            return Err(Fault::LargeSite);
        }
        let mut totals = [0; MOST_TRANSMITTERS + 1];
        let mut total = 0;
        for (&transmitter, after) in site.iter().zip(&mut totals[1..]) {
            let (feet, tenths) = (transmitter >> 16, transmitter & 0xFFFF);
            total += u64::from(feet) << 32 | u64::from(tenths);
            *after = total;
        }
        Ok(Cable {
            totals,
            end: site.len(),
        })
    }

    /// Whether the transmitters from one place to another may share an area.
    fn fits(&self, from: usize, to: usize) -> bool {
        let total = self.totals[to] - self.totals[from];
        let (feet, tenths) = ((total >> 32) as u32, total as u32);
        (1..=MOST_IN_AREA).contains(&(to - from)) && feet <= MOST_FEET && tenths <= MOST_TENTHS
    }

    /// The end of the longest area from a place on; the place itself if there is none.
    fn longest(&self, from: usize) -> usize {
        let (mut fits, mut fails) = (from, self.end.min(from + MOST_IN_AREA) + 1);
        while fails - fits > 1 {
            let middle = (fits + fails) / 2;
            if self.fits(from, middle) {
                fits = middle;
            } else {
                fails = middle;
            }
        }
        fits
    }
}

/// Proposes the areas of a site, each as long as it may be: then the fewest areas are proposed,
/// since an area that begins later never ends earlier. Refusals: 34, 35.
pub fn plan(site: &[u32]) -> Answer<AreaPlan> {
    let cable = Cable::of(site)?;
    let mut sizes = [0; MOST_AREAS];
    let (mut from, mut areas) = (0, 0);
    for size in &mut sizes {
        let to = cable.longest(from);
        if to == from {
            break;
        }
        *size = (to - from) as u8;
        (from, areas) = (to, areas + 1);
    }
    if from < site.len() {
        return Err(Fault::NoPlan);
    }
    Ok(AreaPlan { sizes, areas })
}

/// Accepts a plan for a site. Refusals: 34, 36.
pub fn check(site: &[u32], plan: &[u8]) -> Answer<()> {
    let cable = Cable::of(site)?;
    let mut from = 0;
    for &size in plan {
        let to = from + usize::from(size);
        if to > cable.end || !cable.fits(from, to) {
            return Err(Fault::PlanRefused);
        }
        from = to;
    }
    if from != cable.end || plan.len() > MOST_AREAS {
        return Err(Fault::PlanRefused);
    }
    Ok(())
}
