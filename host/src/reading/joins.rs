//! Summaries put together by sorting: the lines of both in one row, each pair's side by side.

use super::summaries::in_form;
use super::IndependentReading;
use crate::calls::Joins;
use crate::types::summaries::{Line, Summary, LARGEST_COUNT, MOST_LINES, NO_LEVEL};
use crate::types::{Answer, Fault};

impl Joins for IndependentReading {
    // Kept out of line, as a call of the archive is.
    #[inline(never)]
    fn summary_join(&self, one: &Summary, other: &Summary) -> Answer<Summary> {
        join(one, other)
    }
}

/// Joins two summaries. Refusals: 37, 25, 24.
pub fn join(one: &Summary, other: &Summary) -> Answer<Summary> {
    in_form(one)?;
    in_form(other)?;
    let mut lines = [Line::default(); 2 * MOST_LINES];
    let lines = &mut lines[..one.used().len() + other.used().len()];
    let (first, second) = lines.split_at_mut(one.used().len());
    first.copy_from_slice(one.used());
    second.copy_from_slice(other.used());
    lines.sort_by_key(Line::pair);
    let pairs = || lines.chunk_by(|line, next| line.pair() == next.pair());
    let count = pairs().count();
    if count > MOST_LINES || one.others > 0 || other.others > 0 {
        return Err(Fault::Unjoined);
    }
    let mut summary = Summary {
        count: count as u32,
        ..Summary::default()
    };
    for (line, own) in summary.lines.iter_mut().zip(pairs()) {
        *line = together(own)?;
    }
    Ok(summary)
}

/// One line of all lines of a pair. Refusal: 24.
fn together(own: &[Line]) -> Answer<Line> {
    let sum = |count: fn(&Line) -> u32| {
        let sum: u64 = own.iter().map(|line| u64::from(count(line))).sum();
        match u32::try_from(sum) {
            Ok(sum) if sum <= LARGEST_COUNT => Ok(sum),
            _ => Err(Fault::LargeCount),
        }
    };
    // Only lines with a good reply have levels.
    let levels = || own.iter().filter(|line| line.good > 0);
    Ok(Line {
        address: own[0].address,
        settings: own[0].settings,
        lowest: levels().map(|line| line.lowest).min().unwrap_or(NO_LEVEL),
        highest: levels().map(|line| line.highest).max().unwrap_or(NO_LEVEL),
        good: sum(|line| line.good)?,
        faulty: sum(|line| line.faulty)?,
    })
}
