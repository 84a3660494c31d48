//! The desk summary, as request 03 of document 02 has it.

use super::Answer;
use std::fmt;

/// Most lines of a summary.
pub const MOST_LINES: usize = 30;
/// The largest count of a summary that is taken.
pub const LARGEST_COUNT: u32 = 1_000_000;
/// What stands for no level: no mode has such a one.
pub const NO_LEVEL: u16 = u16::MAX;

/// One address and settings pair of a summary. All zeros is a line that is not used.
#[repr(C)]
#[derive(Clone, Copy, Default, PartialEq, Eq)]
pub struct Line {
    pub address: u16,
    pub settings: u16,
    pub lowest: u16,
    pub highest: u16,
    pub good: u32,
    pub faulty: u32,
}

impl Line {
    /// What lines rise by: the address, then the settings.
    #[inline]
    pub fn pair(&self) -> (u16, u16) {
        (self.address, self.settings)
    }
}

impl fmt::Debug for Line {
    fn fmt(&self, f: &mut fmt::Formatter) -> fmt::Result {
        let level = |level| match level {
            NO_LEVEL => "-".to_string(),
            _ => level.to_string(),
        };
        let (lowest, highest) = (level(self.lowest), level(self.highest));
        let (address, settings) = self.pair();
        let (good, faulty) = (self.good, self.faulty);
        write!(
            f,
            "({address} {settings} {lowest} {highest} {good} {faulty})"
        )
    }
}

/// A summary: its used lines from the front, and the records of pairs that have none. All zeros is
/// a blank one.
#[repr(C)]
#[derive(Clone, Copy, Default, PartialEq, Eq)]
pub struct Summary {
    /// How many lines are used.
    pub count: u32,
    pub others: u32,
    pub lines: [Line; MOST_LINES],
}

impl Summary {
    /// The lines that are used, all of them if the count is above 30.
    pub fn used(&self) -> &[Line] {
        &self.lines[..(self.count as usize).min(MOST_LINES)]
    }
}

impl fmt::Debug for Summary {
    fn fmt(&self, f: &mut fmt::Formatter) -> fmt::Result {
        write!(f, "count {} others {} ", self.count, self.others)?;
        let blank = self.lines.iter().rev();
        let blank = blank.take_while(|line| **line == Line::default()).count();
        let shown = (MOST_LINES - blank).max(self.used().len());
        f.debug_list().entries(&self.lines[..shown]).finish()
    }
}

/// What a save that keeps a summary answers: the summary after it, and the stores made.
#[derive(Clone, Copy, Debug, PartialEq, Eq)]
pub struct Kept {
    pub summary: Summary,
    pub answer: Answer<usize>,
}
