//! Summaries joined line by line, right but for one mistake.

use sisalcove_host::calls::{Joins, Summaries};
use sisalcove_host::reading::IndependentReading;
use sisalcove_host::types::summaries::{Line, Summary, NO_LEVEL};
use sisalcove_host::types::{Answer, Entry, Fault};

/// The mistakes.
#[derive(Clone, Copy, Debug, PartialEq, Eq)]
pub enum Misjoined {
    SecondsLevelsTaken,
    LargerCountTaken,
    FirstFormAlone,
    FormAskedLast,
    SumsStopAtMillion,
    SumsComeRoundAgain,
    ThirtyFirstPairIsAnother,
    LinesPutAtTheEnd,
    LargeCountBeforeUnjoined,
    OthersAddedUp,
    OthersOfSecondNotAsked,
    NoLevelIsHighest,
    NoLevelIsZero,
    LastLineLeftOut,
    MillionRefused,
    FaultySumNotAsked,
    TwentyNinePairsAtMost,
}

use Misjoined::*;

/// The damaged core.
pub struct Joiner(pub Option<Misjoined>);

impl Joiner {
    fn is(&self, mistake: Misjoined) -> bool {
        self.0 == Some(mistake)
    }

    fn sum(&self, one: u32, other: u32) -> u64 {
        let sum = u64::from(one) + u64::from(other);
        match self.0 {
            Some(LargerCountTaken) => one.max(other).into(),
            Some(SumsStopAtMillion) if one.max(other) <= 1_000_000 => sum.min(1_000_000),
            Some(SumsComeRoundAgain) => sum & 0xFFFF_FFFF,
            _ => sum,
        }
    }

    fn combined(&self, one: &Line, other: &Line) -> (Line, bool) {
        let (good, faulty) = (
            self.sum(one.good, other.good),
            self.sum(one.faulty, other.faulty),
        );
        let none = |line: &Line| line.good == 0;
        let (lowest, highest) = if self.is(SecondsLevelsTaken) && !none(other) || none(one) {
            (other.lowest, other.highest)
        } else if none(other) && !self.is(NoLevelIsHighest) && !self.is(NoLevelIsZero) {
            (one.lowest, one.highest)
        } else if none(other) && self.is(NoLevelIsZero) {
            (0, one.highest)
        } else {
            (one.lowest.min(other.lowest), one.highest.max(other.highest))
        };
        let largest = 1_000_000 - u64::from(self.is(MillionRefused));
        let large = good > largest || faulty > largest && !self.is(FaultySumNotAsked);
        let line = Line {
            lowest,
            highest,
            good: good as u32,
            faulty: faulty as u32,
            ..*one
        };
        (line, large)
    }
}

/// Whether a page is in form, as a save on a sheet of a bad size tells it.
fn in_form(page: &Summary) -> bool {
    let entry = Entry {
        settings: 0,
        minute: 0,
        address: 0,
        count: 0,
        reply: &[],
    };
    let kept = IndependentReading.summary_save(&mut [0], page, &entry, 0);
    kept.answer != Err(Fault::Summary)
}

impl Joins for Joiner {
    fn summary_join(&self, one: &Summary, other: &Summary) -> Answer<Summary> {
        let formed = in_form(one) && (in_form(other) || self.is(FirstFormAlone));
        if !formed && !self.is(FormAskedLast) {
            return Err(Fault::Summary);
        }
        let mut lines = one.used().to_vec();
        let mut large = false;
        let mut others = 0;
        let left_out = usize::from(self.is(LastLineLeftOut) && other.count > 1);
        for line in &other.used()[..other.used().len() - left_out] {
            let place = lines.iter().position(|own| own.pair() >= line.pair());
            let place = place.unwrap_or(lines.len());
            let blank = Line {
                lowest: NO_LEVEL,
                highest: NO_LEVEL,
                good: 0,
                faulty: 0,
                ..*line
            };
            let full = lines.len() == 30;
            match lines.get_mut(place).filter(|own| own.pair() == line.pair()) {
                Some(own) => {
                    let (both, is_large) = self.combined(own, line);
                    *own = both;
                    large |= is_large;
                }
                None if self.is(ThirtyFirstPairIsAnother) && full => {
                    others += line.good + line.faulty;
                }
                None => {
                    large |= self.combined(&blank, line).1;
                    let end = if self.is(LinesPutAtTheEnd) {
                        lines.len()
                    } else {
                        place
                    };
                    lines.insert(end, *line);
                }
            }
        }
        for line in one.used() {
            let blank = Line {
                good: 0,
                faulty: 0,
                ..*line
            };
            large |= self.combined(&blank, line).1;
        }
        let most = 30 - usize::from(self.is(TwentyNinePairsAtMost));
        let second = other.others > 0 && !self.is(OthersOfSecondNotAsked);
        let unkept = (one.others > 0 || second) && !self.is(OthersAddedUp);
        let unjoined = lines.len() > most || unkept;
        if self.is(LargeCountBeforeUnjoined) && large {
            return Err(Fault::LargeCount);
        }
        if unjoined {
            return Err(Fault::Unjoined);
        }
        if large {
            return Err(Fault::LargeCount);
        }
        if !formed {
            return Err(Fault::Summary);
        }
        let mut page = Summary {
            count: lines.len() as u32,
            others,
            ..Summary::default()
        };
        if self.is(OthersAddedUp) {
            page.others = one.others.wrapping_add(other.others);
        }
        page.lines[..lines.len()].copy_from_slice(&lines);
        Ok(page)
    }
}
