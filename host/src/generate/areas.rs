//! Sites of transmitters, and plans that a fitter might draw for them.

use crate::random::Random;
use crate::types::areas::{transmitter, MOST_TRANSMITTERS};

/// A number of feet or tenths: a share of the limit, its end, or anything.
fn part(random: &mut Random, limit: u32, share: usize) -> u16 {
    // The first two leave few sites with a plan, so they are rare.
    let part = match random.below(1_024) {
        0 => random.next() as u16 as usize,
        1 => limit as usize + random.below(2),
        2..=129 => limit as usize / share,
        130..=319 => 0,
        _ => random.below(2 * limit as usize / share + 1),
    };
    part.min(usize::from(u16::MAX)) as u16
}

/// A site of any size, its areas ended by transmitters, feet or ohms; a plan often just exists, or
/// just does not. Now and then it has more transmitters than a site may have.
pub fn site(random: &mut Random) -> Vec<u32> {
    let count = match random.below(32) {
        0 => MOST_TRANSMITTERS,
        1 => MOST_TRANSMITTERS + 1 + random.below(200),
        2..=9 => random.below(8),
        _ => random.below(MOST_TRANSMITTERS + 1),
    };
    let (feet, ohms) = (share(random, count), share(random, count));
    let one = |_| transmitter(part(random, 10_000, feet), part(random, 500, ohms));
    (0..count).map(one).collect()
}

/// How many transmitters make up an area by one of its limits.
fn share(random: &mut Random, count: usize) -> usize {
    match random.below(4) {
        0 => 1 + random.below(40),
        1 => 1_000,
        // About as many as make eight areas.
        _ => 1 + count / 8 + random.below(3),
    }
}

/// A plan near a given one: changed at one place, or drawn anew with the right sum or any.
pub fn fitters_plan(random: &mut Random, near: &[u8], site: usize) -> Vec<u8> {
    let mut plan = near.to_vec();
    let place = random.below(plan.len() + 1);
    match random.below(8) {
        0 => return plan,
        1 => plan.insert(place, random.below(3) as u8),
        2 if place < plan.len() => drop(plan.remove(place)),
        3 if place < plan.len() => plan[place] = random.byte(),
        // One transmitter from an area to the next, which keeps the sum.
        4 | 5 if place + 1 < plan.len() => {
            let (less, more) = if random.coin() { (0, 1) } else { (1, 0) };
            plan[place + less] = plan[place + less].wrapping_sub(1);
            plan[place + more] = plan[place + more].wrapping_add(1);
        }
        // One area made two.
        6 if place < plan.len() => {
            let first = random.below(usize::from(plan[place]) + 1) as u8;
            let rest = plan[place] - first;
            plan.splice(place..place + 1, [first, rest]);
        }
        _ => {
            plan.clear();
            let mut left = site;
            while left > 0 && plan.len() < 12 {
                let size = 1 + random.below(left.min(32));
                plan.push(size as u8);
                left -= size;
            }
        }
    }
    plan
}

#[cfg(test)]
mod tests {
    use super::*;
    use crate::random::SEED;
    use crate::reading::areas::{check, plan};

    #[test]
    fn every_outcome_is_reached() {
        let mut random = Random::new(SEED, 0);
        let (mut areas, mut numbers, mut checks) = ([0u32; 9], [0u32; 37], [0u32; 37]);
        for _ in 0..5_000 {
            let site = site(&mut random);
            match plan(&site) {
                Ok(plan) => {
                    areas[usize::from(plan.areas)] += 1;
                    let plan = fitters_plan(&mut random, plan.sizes(), site.len());
                    let number = check(&site, &plan).err().map_or(0, |fault| fault.number());
                    checks[usize::from(number)] += 1;
                }
                Err(fault) => numbers[usize::from(fault.number())] += 1,
            }
        }
        assert!(areas.iter().all(|&times| times > 50), "{areas:?}");
        assert!(numbers[34] > 50 && numbers[35] > 500, "{numbers:?}");
        assert!(checks[0] > 500 && checks[36] > 500, "{checks:?}");
    }
}
