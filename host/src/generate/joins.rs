//! Summaries to be joined: of pairs that they share, with counts whose sums come to the largest.

use super::summary;
use crate::random::Random;
use crate::types::summaries::{Summary, LARGEST_COUNT, NO_LEVEL};

/// Pairs for so many summaries, drawn from some thirty, so that a join has now fewer than thirty
/// pairs and now a few more.
pub fn shares(random: &mut Random, count: usize) -> Vec<Vec<(u16, u8)>> {
    let all = [1, 4, 20, 30, 30, 31, 34][random.below(7)];
    let pair = |n: usize| ((n / 3) as u16 * 37 % 1_000, (n % 3) as u8 * 5);
    let kept = 1 + random.below(4);
    let share = |random: &mut Random| {
        let pairs = (0..all).filter(|_| kept == 1 || !random.one_in(kept));
        pairs.map(pair).collect()
    };
    (0..count).map(|_| share(random)).collect()
}

/// A summary of these pairs that no refusal of a join names by itself.
pub fn joinable(random: &mut Random, pairs: &[(u16, u8)]) -> Summary {
    let mut page = summary(random, pairs);
    page.others = 0;
    let count = |random: &mut Random| match random.below(24) {
        0 => LARGEST_COUNT,
        1 => LARGEST_COUNT / 2 + random.below(2) as u32,
        2 => LARGEST_COUNT / 3 + random.below(2) as u32,
        3..=9 => 0,
        _ => random.below(2_000) as u32,
    };
    let used = page.used().len();
    for line in &mut page.lines[..used] {
        (line.good, line.faulty) = (count(random), count(random));
        let level = |random: &mut Random| random.below(33_000) as u16;
        (line.lowest, line.highest) = match line.good {
            0 => (NO_LEVEL, NO_LEVEL),
            _ => (level(random), level(random)),
        };
    }
    page
}

#[cfg(test)]
mod tests {
    use super::*;
    use crate::random::SEED;
    use crate::reading::joins::join;

    #[test]
    fn joins_have_every_outcome() {
        let mut random = Random::new(SEED, 0);
        let mut seen = [0u32; 38];
        for _ in 0..5_000 {
            let shares = shares(&mut random, 2);
            let pages = [0, 1].map(|n| joinable(&mut random, &shares[n]));
            let answer = join(&pages[0], &pages[1]);
            seen[answer.err().map_or(0, |fault| usize::from(fault.number()))] += 1;
        }
        assert!(
            seen[0] > 500 && seen[24] > 500 && seen[25] > 100,
            "{seen:?}"
        );
        assert_eq!(seen[37], 0);
    }
}
