//! Joins compared, in either order and grouping, and held to the lists put end to end.

use super::summaries::of_list;
use super::{check, in_parts, same, Check, Difference, Verdict};
use crate::calls::Joins;
use crate::generate;
use crate::random::Random;
use crate::reading::sheet;
use crate::types::summaries::{Line, Summary, LARGEST_COUNT, MOST_LINES, NO_LEVEL};
use crate::types::{Answer, Fault};

/// Pages joined in one part.
const PART: usize = 100;

/// The comparisons of cores that join summaries.
pub fn checks<L: Joins, R: Joins>() -> Vec<Check<L, R>> {
    vec![
        check("joins, of pages handed in", |l, r, plan| {
            handed_in(l, r, plan.seed, plan.joins)
        }),
        check("joins, groupings", |l, r, plan| {
            groupings(l, r, plan.seed, plan.joins)
        }),
        check("joins, lists end to end", |l, r, plan| {
            end_to_end(l, r, plan.seed, plan.joins / 5)
        }),
    ]
}

/// Joins with both, in either order, and answers what came of it.
fn join<L: Joins, R: Joins>(
    left: &L,
    right: &R,
    one: &Summary,
    other: &Summary,
) -> Result<Answer<Summary>, Difference> {
    let asked = || format!("joining {one:?}\n    and {other:?}");
    let joined = left.summary_join(one, other);
    same(joined, right.summary_join(one, other), asked)?;
    same(joined, left.summary_join(other, one), asked)?;
    same(joined, right.summary_join(other, one), asked)?;
    Ok(joined)
}

/// The line of a pair in a summary, or none.
fn line_of(page: &Summary, pair: (u16, u16)) -> Option<&Line> {
    page.used().iter().find(|line| line.pair() == pair)
}

/// What a join must be at one pair, from the lines that the two have of it.
fn combined(pair: (u16, u16), lines: [Option<&Line>; 2]) -> (Option<Line>, bool) {
    let counts = |count: fn(&Line) -> u32| -> u64 {
        let counts = lines.iter().flatten().map(|line| u64::from(count(line)));
        counts.sum()
    };
    let (good, faulty) = (counts(|line| line.good), counts(|line| line.faulty));
    let levels = || lines.iter().flatten().filter(|line| line.good > 0);
    let line = lines.iter().flatten().next().map(|_| Line {
        address: pair.0,
        settings: pair.1,
        lowest: levels().map(|line| line.lowest).fold(NO_LEVEL, u16::min),
        highest: levels().map(|line| line.highest).max().unwrap_or(NO_LEVEL),
        good: good as u32,
        faulty: faulty as u32,
    });
    let fits = good.max(faulty) <= u64::from(LARGEST_COUNT);
    (line, fits)
}

/// Holds a join of two pages that are in form to the paper, pair by pair.
fn by_pairs(one: &Summary, other: &Summary, joined: &Answer<Summary>) -> Result<(), Difference> {
    let asked = || format!("joining {one:?}\n    and {other:?}");
    let used = one.used().iter().chain(other.used());
    let mut pairs: Vec<(u16, u16)> = used.map(Line::pair).collect();
    pairs.sort_unstable();
    pairs.dedup();
    if pairs.len() > MOST_LINES || one.others > 0 || other.others > 0 {
        return same(*joined, Err(Fault::Unjoined), asked);
    }
    let mut expected = Summary {
        count: pairs.len() as u32,
        ..Summary::default()
    };
    let mut all_fit = true;
    for (place, pair) in expected.lines.iter_mut().zip(pairs) {
        let (line, fits) = combined(pair, [line_of(one, pair), line_of(other, pair)]);
        *place = line.unwrap_or_default();
        all_fit &= fits;
    }
    let expected = match all_fit {
        true => Ok(expected),
        false => Err(Fault::LargeCount),
    };
    same(*joined, expected, asked)
}

/// Pages of every kind, good and hostile; a blank one changes nothing.
fn handed_in<L: Joins, R: Joins>(left: &L, right: &R, seed: u64, count: usize) -> Verdict {
    let blank = Summary::default();
    in_parts(count.div_ceil(PART), |part| {
        let mut random = Random::new(seed, part as u64);
        for _ in 0..PART {
            let shares = generate::shares(&mut random, 2);
            let mut page = |share: &[(u16, u8)]| match random.below(4) {
                0 => generate::handed_in(&mut random, share),
                1 => generate::summary(&mut random, share),
                _ => generate::joinable(&mut random, share),
            };
            let (one, mut other) = (page(&shares[0]), page(&shares[1]));
            if random.one_in(16) {
                // A count so large that a sum of 32 bits would come round again.
                if let Some(line) = other.lines.first_mut().filter(|line| line.good > 0) {
                    line.good = u32::MAX - random.below(2) as u32;
                }
            }
            let joined = join(left, right, &one, &other)?;
            let with_blank = [&one, &other].map(|page| join(left, right, page, &blank));
            let in_form = |answer: &Answer<Summary>| *answer != Err(Fault::Summary);
            let [first, second] = with_blank;
            let (first, second) = (first?, second?);
            if in_form(&first) && in_form(&second) {
                by_pairs(&one, &other, &joined)?;
                by_pairs(&one, &blank, &first)?;
            } else {
                let asked = || format!("joining {one:?}\n    and {other:?}");
                same(joined, Err(Fault::Summary), asked)?;
            }
            if let Ok(alone) = first {
                same(alone, one, || "a page joined with a blank one".to_string())?;
            }
        }
        Ok(3 * PART as u64)
    })
}

/// Three pages that no refusal names by itself: however they are grouped, the joins are equal, or
/// both are refused.
fn groupings<L: Joins, R: Joins>(left: &L, right: &R, seed: u64, count: usize) -> Verdict {
    in_parts(count.div_ceil(PART), |part| {
        let mut random = Random::new(seed, part as u64);
        for _ in 0..PART {
            let shares = generate::shares(&mut random, 3);
            let [a, b, c] = [0, 1, 2].map(|n| generate::joinable(&mut random, &shares[n]));
            let join = |one: &Summary, other: &Summary| join(left, right, one, other);
            let first = match join(&a, &b)? {
                Ok(ab) => join(&ab, &c)?,
                refused => refused,
            };
            let second = match join(&b, &c)? {
                Ok(bc) => join(&a, &bc)?,
                refused => refused,
            };
            same(first.ok(), second.ok(), || {
                format!("two groupings of {a:?},\n    {b:?},\n    {c:?}")
            })?;
        }
        Ok(2 * PART as u64)
    })
}

/// Two sheets: where their summaries are joined, it is the summary of the two lists end to end.
fn end_to_end<L: Joins, R: Joins>(left: &L, right: &R, seed: u64, count: usize) -> Verdict {
    in_parts(count, |part| {
        let mut random = Random::new(seed, part as u64);
        let pairs = generate::pairs(&mut random);
        let mut lists = Vec::new();
        for _ in 0..2 {
            let sheet = generate::summarised_sheet(&mut random, &pairs);
            lists.push(sheet::list(&sheet).unwrap_or_default());
        }
        let joined = join(left, right, &of_list(&lists[0]), &of_list(&lists[1]))?;
        if let Ok(joined) = joined {
            same(joined, of_list(&lists.concat()), || {
                format!("the join of {:?}\n    and {:?}", lists[0], lists[1])
            })?;
        }
        Ok(1)
    })
}
