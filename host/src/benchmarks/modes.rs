//! Replies of one mode alone: a program that meets one mode at a time never guesses it wrong, so
//! that these and the cases of all modes mixed tell two things.

use super::{reads, reads_by_pairs, writes, Benchmarks};
use crate::calls::Bare;
use crate::stopwatch::Timing;

/// The modes, by the number that settings have for them.
const MODES: [&str; 4] = ["fractional", "decimal", "20 m", "30 m"];

impl<L: Bare, R: Bare> Benchmarks<'_, L, R> {
    /// Good replies of 40 bits read by either reader, and written, each mode alone.
    pub fn modes(&self, mut tell: impl FnMut(&Timing)) {
        for (number, mode) in MODES.iter().enumerate() {
            let mut pool = self.reply_pool(40, true);
            pool.retain(|case| usize::from(case.settings % 4) == number);
            let (left, right) = (reads(self.left, &pool), reads(self.right, &pool));
            let name = format!("read a reply, {mode} alone");
            self.time(&mut tell, &name, pool.len(), left, right);
            let left = reads_by_pairs(self.left, &pool);
            let right = reads_by_pairs(self.right, &pool);
            let name = format!("read a reply by pairs, {mode} alone");
            self.time(&mut tell, &name, pool.len(), left, right);
            let mut pool = self.reading_pool(true);
            pool.retain(|(settings, _, _)| usize::from(settings % 4) == number);
            let (left, right) = (writes(self.left, &pool), writes(self.right, &pool));
            let name = format!("write a reply, {mode} alone");
            self.time(&mut tell, &name, pool.len(), left, right);
        }
    }
}

#[cfg(test)]
mod tests {
    use super::*;
    use crate::benchmarks::tests::at_once;

    /// Each mode is timed alone, with one side on both.
    #[test]
    fn every_mode_is_timed() {
        let mut rows = Vec::new();
        at_once().modes(|timing| rows.push(timing.row()));
        assert_eq!(rows.len(), 3 * MODES.len(), "{rows:#?}");
    }
}
