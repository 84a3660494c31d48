//! Areas, request 14.

use crate::calls::Areas;
use crate::types::areas::transmitter;
use crate::types::Fault;

/// A site of the same transmitter so many times.
fn times(count: usize, feet: u16, tenths: u16) -> Vec<u32> {
    vec![transmitter(feet, tenths); count]
}

/// The plan proposed for a site, which the checker accepts.
fn planned(core: &impl Areas, site: &[u32]) -> Result<Vec<u8>, u8> {
    let plan = core.plan_areas(site).map_err(Fault::number)?;
    assert!(plan.sizes[usize::from(plan.areas)..]
        .iter()
        .all(|&size| size == 0));
    assert_eq!(core.check_areas(site, plan.sizes()), Ok(()));
    Ok(plan.sizes().to_vec())
}

/// Sites, and the plans proposed for them.
pub fn plans(core: &impl Areas) {
    let planned = |site: &[u32]| planned(core, site);
    assert_eq!(planned(&[]), Ok(vec![]));
    assert_eq!(planned(&times(1, 10_000, 500)), Ok(vec![1]));
    assert_eq!(planned(&times(1, 10_001, 0)), Err(35));
    assert_eq!(planned(&times(1, 0, 501)), Err(35));
    assert_eq!(planned(&times(2, 65_535, 65_535)), Err(35));
    assert_eq!(planned(&times(30, 0, 0)), Ok(vec![30]));
    assert_eq!(planned(&times(31, 0, 0)), Ok(vec![30, 1]));
    assert_eq!(planned(&times(120, 0, 0)), Ok(vec![30; 4]));
    assert_eq!(planned(&times(121, 0, 0)), Err(34));
    let feet = [(5_000, 0), (5_000, 0), (1, 0)].map(|(f, t)| transmitter(f, t));
    assert_eq!(planned(&feet), Ok(vec![2, 1]));
    let ohms = [(10, 250), (10, 250), (10, 1)].map(|(f, t)| transmitter(f, t));
    assert_eq!(planned(&ohms), Ok(vec![2, 1]));
    assert_eq!(planned(&times(16, 5_000, 0)), Ok(vec![2; 8]));
    assert_eq!(planned(&times(17, 5_000, 0)), Err(35));
    assert_eq!(planned(&times(9, 10_000, 0)), Err(35));
}

/// Plans drawn by a fitter.
pub fn drawn(core: &impl Areas) {
    let check = |site: &[u32], plan: &[u8]| core.check_areas(site, plan);
    let site = [(5_000, 0), (5_000, 0), (1, 0)].map(|(f, t)| transmitter(f, t));
    let plans: [&[u8]; 3] = [&[2, 1], &[1, 2], &[1, 1, 1]];
    for plan in plans {
        assert_eq!(check(&site, plan), Ok(()), "{plan:?}");
    }
    let plans: [&[u8]; 7] = [
        &[3],
        &[2],
        &[2, 0, 1],
        &[2, 1, 0],
        &[2, 1, 1],
        &[],
        &[2, 255],
    ];
    for plan in plans {
        assert_eq!(check(&site, plan), Err(Fault::PlanRefused), "{plan:?}");
    }
    assert_eq!(check(&[], &[]), Ok(()));
    assert_eq!(check(&[], &[0]), Err(Fault::PlanRefused));
    let large = times(121, 0, 0);
    for plan in [&[][..], &[30, 30, 30, 30, 1], &[0]] {
        assert_eq!(check(&large, plan), Err(Fault::LargeSite), "{plan:?}");
    }
}
