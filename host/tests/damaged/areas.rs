//! Areas planned and checked one transmitter after another, right but for one mistake.

use sisalcove_host::calls::Areas;
use sisalcove_host::types::areas::AreaPlan;
use sisalcove_host::types::{Answer, Fault};

/// The mistakes.
#[derive(Clone, Copy, Debug, PartialEq, Eq)]
pub enum Miswired {
    FeetBelowTheLimit,
    FiftyTenths,
    ThirtyFirstInArea,
    NinthArea,
    OneTransmitterEarly,
    AlwaysRefused,
    FirstAddsNoFeet,
    FeetAndTenthsSwapped,
    FeetComeRoundAgain,
    EmptySiteRefused,
    LastAreasEvened,
    RubbishAfterLastSize,
    LargeSitePlanned,
    LargeSiteChecked,
    LastLeftOut,
    EmptyAreaTaken,
    PlanSumComesRoundAgain,
    NineAreasAccepted,
    ReachesBeyondTheSite,
}

use Miswired::*;

/// The damaged core.
pub struct Fitter(pub Option<Miswired>);

impl Fitter {
    fn is(&self, mistake: Miswired) -> bool {
        self.0 == Some(mistake)
    }

    fn fits(&self, area: &[u32]) -> bool {
        let (mut feet, mut tenths) = (0u32, 0u32);
        for (n, one) in area.iter().enumerate() {
            let skipped = n == 0 && area.len() > 1 && self.is(FirstAddsNoFeet);
            feet += if skipped { 0 } else { one >> 16 };
            tenths += one & 0xFFFF;
        }
        match self.0 {
            Some(FeetBelowTheLimit) => feet += 1,
            Some(FiftyTenths) => tenths *= 10,
            Some(FeetAndTenthsSwapped) => (feet, tenths) = (tenths, feet),
            Some(FeetComeRoundAgain) => feet &= 0xFFFF,
            _ => {}
        }
        let most = if self.is(ThirtyFirstInArea) { 31 } else { 30 };
        area.len() <= most && feet <= 10_000 && tenths <= 500
    }

    fn most_areas(&self, mistake: Miswired) -> usize {
        if self.is(mistake) {
            9
        } else {
            8
        }
    }
}

impl Areas for Fitter {
    fn plan_areas(&self, site: &[u32]) -> Answer<AreaPlan> {
        if site.len() > 120 && !self.is(LargeSitePlanned) {
            return Err(Fault::LargeSite);
        }
        if self.is(AlwaysRefused) || self.is(EmptySiteRefused) && site.is_empty() {
            return Err(Fault::NoPlan);
        }
        let mut all = Vec::new();
        let mut rest = site;
        while !rest.is_empty() {
            let mut size = 0;
            while size < rest.len() && self.fits(&rest[..=size]) {
                size += 1;
            }
            if self.is(OneTransmitterEarly) && size > 1 {
                size -= 1;
            }
            if size == 0 {
                return Err(Fault::NoPlan);
            }
            all.push(size as u8);
            rest = &rest[size..];
        }
        if all.len() > self.most_areas(NinthArea) {
            return Err(Fault::NoPlan);
        }
        if let (true, [.., before, last]) = (self.is(LastAreasEvened), &mut all[..]) {
            // Another plan of as few areas, where it is one.
            let (whole, from) = (*before + *last, site.len() - usize::from(*before + *last));
            let middle = from + usize::from(whole / 2);
            if self.fits(&site[from..middle]) && self.fits(&site[middle..]) && whole > 1 {
                (*before, *last) = (whole / 2, whole - whole / 2);
            }
        }
        let mut sizes = [0; 8];
        if self.is(RubbishAfterLastSize) {
            sizes[7] = 1;
        }
        for (size, one) in sizes.iter_mut().zip(&all) {
            *size = *one;
        }
        let areas = all.len() as u8;
        Ok(AreaPlan { sizes, areas })
    }

    fn check_areas(&self, site: &[u32], plan: &[u8]) -> Answer<()> {
        if site.len() > 120 && !self.is(LargeSiteChecked) {
            return Err(Fault::LargeSite);
        }
        let refused = Err(Fault::PlanRefused);
        if plan.len() > self.most_areas(NineAreasAccepted) {
            return refused;
        }
        let mut from = 0;
        for &size in plan {
            if size == 0 && !self.is(EmptyAreaTaken) {
                return refused;
            }
            let mut to = from + usize::from(size);
            if self.is(PlanSumComesRoundAgain) {
                to &= 0xFF;
            }
            if self.is(ReachesBeyondTheSite) && from < site.len() {
                to = to.min(site.len());
            }
            match site.get(from.min(to)..to) {
                Some(area) if self.fits(area) => from = to,
                _ => return refused,
            }
        }
        let left_out = self.is(LastLeftOut) && from + 1 == site.len();
        if from == site.len() || left_out {
            Ok(())
        } else {
            refused
        }
    }
}
