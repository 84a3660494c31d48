//! Areas of transmitters, request 14.

use super::{refused, Library};
use crate::calls::Areas;
use crate::types::areas::{AreaPlan, MOST_AREAS};
use crate::types::Answer;
use std::mem::size_of;

#[repr(C)]
struct Plan {
    sizes: [u8; MOST_AREAS],
    areas: u8,
    number: u8,
}

const _: () = assert!(size_of::<Plan>() == 10);

#[cfg(test)]
layout_of! {
    "sisal_plan": Plan { sizes, areas, number }
}

extern "C" {
    fn sisal_plan_areas(site: *const u32, site_count: usize) -> Plan;
    fn sisal_check_areas(
        site: *const u32,
        site_count: usize,
        plan: *const u8,
        plan_bytes: usize,
    ) -> u8;
}

impl Areas for Library {
    #[inline]
    fn plan_areas(&self, site: &[u32]) -> Answer<AreaPlan> {
        // SAFETY: the library reads the numbers of the slice alone.
        let plan = unsafe { sisal_plan_areas(site.as_ptr(), site.len()) };
        refused(plan.number).map(|()| AreaPlan {
            sizes: plan.sizes,
            areas: plan.areas,
        })
    }

    #[inline]
    fn check_areas(&self, site: &[u32], plan: &[u8]) -> Answer<()> {
        // SAFETY: the library reads the numbers and bytes of the slices alone.
        refused(unsafe { sisal_check_areas(site.as_ptr(), site.len(), plan.as_ptr(), plan.len()) })
    }
}

#[cfg(test)]
mod tests {
    use super::*;
    use crate::generate;
    use crate::random::{Random, SEED};

    /// Beside a refusal all else is 0.
    #[test]
    fn a_refusal_answers_its_number_alone() {
        let mut random = Random::new(SEED, 0);
        let mut seen = [0u32; 37];
        for _ in 0..3_000 {
            let site = generate::site(&mut random);
            // SAFETY: the numbers of a slice are lent for reading.
            let plan = unsafe { sisal_plan_areas(site.as_ptr(), site.len()) };
            seen[usize::from(plan.number)] += 1;
            if plan.number != 0 {
                assert_eq!((plan.sizes, plan.areas), ([0; MOST_AREAS], 0), "{site:?}");
            }
        }
        assert!(seen[34] > 20 && seen[35] > 200, "{seen:?}");
    }
}
