//! Summaries put together, request 08.

use super::summaries::Made;
use super::{refused, Library};
use crate::calls::Joins;
use crate::types::summaries::Summary;
use crate::types::Answer;

extern "C" {
    fn sisal_summary_join(one: Summary, other: Summary) -> Made;
}

impl Joins for Library {
    #[inline]
    fn summary_join(&self, one: &Summary, other: &Summary) -> Answer<Summary> {
        // SAFETY: nothing is lent.
        let made = unsafe { sisal_summary_join(*one, *other) };
        refused(made.number).map(|()| made.summary)
    }
}

#[cfg(test)]
mod tests {
    use super::*;
    use crate::generate;
    use crate::random::{Random, SEED};

    /// Beside a refusal the summary is blank.
    #[test]
    fn a_refusal_answers_its_number_alone() {
        let mut random = Random::new(SEED, 0);
        let mut seen = [0u32; 38];
        for _ in 0..3_000 {
            let shares = generate::shares(&mut random, 2);
            let one = generate::handed_in(&mut random, &shares[0]);
            let other = generate::joinable(&mut random, &shares[1]);
            // SAFETY: nothing is lent.
            let made = unsafe { sisal_summary_join(one, other) };
            seen[usize::from(made.number)] += 1;
            if made.number != 0 {
                assert_eq!(made.summary, Summary::default(), "{}", made.number);
            }
        }
        for number in [24, 25, 37] {
            assert!(seen[number] > 50, "{number}: {seen:?}");
        }
    }
}
