//! Areas compared, and held to a search of all plans.

use super::{check, in_parts, same, Check, Difference, Verdict};
use crate::calls::Areas;
use crate::generate;
use crate::random::Random;
use crate::types::areas::{
    transmitter, AreaPlan, MOST_AREAS, MOST_FEET, MOST_IN_AREA, MOST_TENTHS, MOST_TRANSMITTERS,
};
use crate::types::{Answer, Fault};

/// The comparisons of cores that plan areas.
pub fn checks<L: Areas, R: Areas>() -> Vec<Check<L, R>> {
    vec![
        check("areas, all small sites and plans", |l, r, _| small(l, r)),
        check("areas, one transmitter and even sites", |l, r, _| {
            even(l, r)
        }),
        check("areas, sites of any kind", |l, r, plan| {
            sites(l, r, plan.seed, plan.sites)
        }),
    ]
}

/// A site in words.
fn in_words(site: &[u32]) -> String {
    let one = |one: &u32| format!("{}/{}", one >> 16, one & 0xFFFF);
    let words: Vec<String> = site.iter().map(one).collect();
    format!("{} transmitters {}", site.len(), words.join(" "))
}

/// Whether these may share an area, by adding them up.
fn fits(area: &[u32]) -> bool {
    let feet: u64 = area.iter().map(|one| u64::from(one >> 16)).sum();
    let tenths: u64 = area.iter().map(|one| u64::from(one & 0xFFFF)).sum();
    let count_fits = (1..=MOST_IN_AREA).contains(&area.len());
    count_fits && feet <= u64::from(MOST_FEET) && tenths <= u64::from(MOST_TENTHS)
}

/// The fewest areas of any plan for a site, by a search of all: the places that some plan of so
/// many areas reaches are kept as bits. None if there is no plan.
fn fewest(site: &[u32]) -> Option<u8> {
    let mut reached: u128 = 1;
    for areas in 0..=MOST_AREAS {
        if reached >> site.len() & 1 == 1 {
            return Some(areas as u8);
        }
        let mut next = 0;
        for from in (0..site.len()).filter(|from| reached >> from & 1 == 1) {
            for to in from + 1..=site.len().min(from + MOST_IN_AREA) {
                if !fits(&site[from..to]) {
                    break;
                }
                next |= 1 << to;
            }
        }
        reached = next;
    }
    None
}

/// What a check of a plan must answer, by taking the areas from the site one after another.
fn accepted(site: &[u32], plan: &[u8]) -> Answer<()> {
    if site.len() > MOST_TRANSMITTERS {
        return Err(Fault::LargeSite);
    }
    let mut rest = site;
    let mut good = plan.len() <= MOST_AREAS;
    for &size in plan {
        match rest.split_at_checked(usize::from(size)) {
            Some((area, others)) => {
                good &= fits(area);
                rest = others;
            }
            None => good = false,
        }
    }
    match good && rest.is_empty() {
        true => Ok(()),
        false => Err(Fault::PlanRefused),
    }
}

/// Checks a plan with both, and holds it to the rules.
fn same_check<L: Areas, R: Areas>(
    left: &L,
    right: &R,
    site: &[u32],
    plan: &[u8],
) -> Result<bool, Difference> {
    let asked = || format!("checking {plan:?} for {}", in_words(site));
    let answer = left.check_areas(site, plan);
    same(answer, right.check_areas(site, plan), asked)?;
    same(answer, accepted(site, plan), asked)?;
    Ok(answer.is_ok())
}

/// Plans a site with both: refused exactly where no plan exists, else accepted, and of the fewest
/// areas.
fn same_plan<L: Areas, R: Areas>(
    left: &L,
    right: &R,
    site: &[u32],
) -> Result<Answer<AreaPlan>, Difference> {
    let asked = || format!("planning {}", in_words(site));
    let answer = left.plan_areas(site);
    same(answer, right.plan_areas(site), asked)?;
    if site.len() > MOST_TRANSMITTERS {
        same(answer, Err(Fault::LargeSite), asked)?;
        return Ok(answer);
    }
    let expected = fewest(site).ok_or(Fault::NoPlan);
    same(answer.map(|plan| plan.areas), expected, asked)?;
    if let Ok(plan) = answer {
        let is_accepted = same_check(left, right, site, plan.sizes())?;
        same(is_accepted, true, asked)?;
    }
    Ok(answer)
}

/// Every site of up to four transmitters about the limits, with every plan of up to four areas;
/// the planner refuses exactly where none of these is accepted.
fn small<L: Areas, R: Areas>(left: &L, right: &R) -> Verdict {
    const KINDS: [u32; 5] = [
        transmitter(0, 0),
        transmitter(5_000, 0),
        transmitter(5_001, 250),
        transmitter(1, 500),
        transmitter(65_535, 65_535),
    ];
    const SIZES: [u8; 6] = [0, 1, 2, 3, 4, 255];
    const LONGEST: usize = 4;
    in_parts(KINDS.len() * (LONGEST + 1), |part| {
        let (kind, length) = (part % KINDS.len(), part / KINDS.len());
        let mut asked = 0;
        for number in 0..KINDS.len().pow(length.saturating_sub(1) as u32) {
            let mut rest = number * KINDS.len() + kind;
            let mut site = Vec::with_capacity(length);
            for _ in 0..length {
                site.push(KINDS[rest % KINDS.len()]);
                rest /= KINDS.len();
            }
            let planned = same_plan(left, right, &site)?.is_ok();
            let mut any = false;
            for areas in 0..=LONGEST as u32 {
                for number in 0..SIZES.len().pow(areas) {
                    let mut plan = [0; LONGEST];
                    let plan = &mut plan[..areas as usize];
                    let mut rest = number;
                    for size in plan.iter_mut() {
                        *size = SIZES[rest % SIZES.len()];
                        rest /= SIZES.len();
                    }
                    any |= same_check(left, right, &site, plan)?;
                    asked += 1;
                }
            }
            same(planned, any, || format!("a plan for {}", in_words(&site)))?;
        }
        Ok(asked)
    })
}

/// One transmitter of all feet and of all tenths, and sites of any number of the same one.
fn even<L: Areas, R: Areas>(left: &L, right: &R) -> Verdict {
    in_parts(256, |part| {
        let mut asked = 0;
        for low in 0..=u8::MAX {
            let number = u16::from_be_bytes([part as u8, low]);
            for site in [
                [transmitter(number, 0)],
                [transmitter(0, number)],
                [transmitter(number, 500)],
                [transmitter(10_000, number)],
            ] {
                same_plan(left, right, &site)?.ok();
                asked += 2;
            }
        }
        for (feet, tenths) in [(0, 0), (333, 0), (334, 1), (0, 16), (1, 17), (1_250, 62)] {
            let site = vec![transmitter(feet, tenths); part];
            let answer = same_plan(left, right, &site)?;
            let sizes = answer.map_or(vec![30; part / 30], |plan| plan.sizes().to_vec());
            for more in [0, 1, 30] {
                let mut plan = sizes.clone();
                plan.push(more);
                same_check(left, right, &site, &plan)?;
                asked += 1;
            }
        }
        Ok(asked)
    })
}

/// Sites of any kind, each with plans of a fitter.
fn sites<L: Areas, R: Areas>(left: &L, right: &R, seed: u64, count: usize) -> Verdict {
    const PART: usize = 100;
    const PLANS: usize = 8;
    in_parts(count.div_ceil(PART), |part| {
        let mut random = Random::new(seed, part as u64);
        for _ in 0..PART {
            let site = generate::site(&mut random);
            let answer = same_plan(left, right, &site)?;
            let near = answer.map_or(Vec::new(), |plan| plan.sizes().to_vec());
            for _ in 0..PLANS {
                let plan = generate::fitters_plan(&mut random, &near, site.len());
                same_check(left, right, &site, &plan)?;
            }
        }
        Ok((PART * (PLANS + 2)) as u64)
    })
}
