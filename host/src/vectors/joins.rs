//! Summaries put together, request 08.

use super::summaries::{good, line, reply, summary, too_many};
use super::{entry, number, SILENT};
use crate::calls::{Core, Joins, Summaries};
use crate::types::summaries::{Line, Summary};
use crate::types::{Entry, Fault, BLANK, SLOT};

/// So many pairs from this address on, one good reply each.
fn pairs(from: u16, count: u16) -> Summary {
    let one = |address| line(address, 1, Some((5, 9)), [1, 0]);
    let lines: Vec<Line> = (from..from + count).map(one).collect();
    summary(&lines, 0)
}

/// The lowest of the lowest, the highest of the highest and the sums, in either order.
pub fn pair_by_pair(core: &impl Joins) {
    let blank = Summary::default();
    let a = [line(7, 1, Some((5, 9)), [2, 1]), line(8, 1, None, [0, 4])];
    let c = [
        line(7, 1, Some((3, 6)), [1, 0]),
        line(7, 2, Some((1, 1)), [1, 0]),
        line(8, 1, Some((4, 4)), [1, 0]),
    ];
    let joined = [
        line(7, 1, Some((3, 9)), [3, 1]),
        line(7, 2, Some((1, 1)), [1, 0]),
        line(8, 1, Some((4, 4)), [1, 4]),
    ];
    let [a, c, joined] = [&a[..], &c, &joined].map(|lines| summary(lines, 0));
    for (one, other, joined) in [(blank, blank, blank), (a, blank, a), (a, c, joined)] {
        assert_eq!(core.summary_join(&one, &other), Ok(joined));
        assert_eq!(core.summary_join(&other, &one), Ok(joined));
    }
}

/// The refusals in their order, each beside a join that is just not refused. Which of the two
/// comes first makes no difference.
pub fn refusals(core: &impl Joins) {
    let (blank, three, eight) = (Summary::default(), summary(&[], 3), pairs(8, 1));
    let table = [
        (pairs(100, 29), pairs(500, 1), Ok(30)),
        (pairs(100, 29), pairs(500, 2), Err(25)),
        (pairs(100, 30), pairs(100, 30), Ok(30)),
        (three, blank, Err(25)),
        (good(1_000_000), good(1), Err(24)),
        (good(1_000_000), eight, Ok(2)),
        (good(1_000_001), blank, Err(24)),
        (good(1_000_001), three, Err(25)),
        (too_many(), three, Err(37)),
    ];
    for (one, other, answer) in table {
        for (one, other) in [(one, other), (other, one)] {
            let joined = core.summary_join(&one, &other);
            let joined = joined.map(|joined| joined.count).map_err(Fault::number);
            assert_eq!(joined, answer, "{one:?} and {other:?}");
        }
    }
    let lines = [
        line(7, 1, Some((5, 9)), [1_000_000, 0]),
        line(8, 1, Some((5, 9)), [1, 0]),
    ];
    let joined = core.summary_join(&good(1_000_000), &eight);
    assert_eq!(joined, Ok(summary(&lines, 0)));
}

/// Both groupings of three are refused, though by different numbers.
pub fn grouping(core: &impl Joins) {
    let (x, y, z) = (good(1_000_000), good(1), pairs(100, 30));
    assert_eq!(number(&core.summary_join(&x, &y)), 24);
    assert_eq!(number(&core.summary_join(&y, &z)), 25);
}

/// The summaries of two lists, joined, are the summary of the lists end to end.
pub fn end_to_end(core: &(impl Core + Summaries + Joins)) {
    let (high, low, metre) = (reply(1, 7, 3_000), reply(1, 7, 2_999), reply(2, 7, 1));
    let first = [entry(1, 7, &high), entry(1, 7, SILENT)];
    let second = [entry(1, 7, &low), entry(2, 7, &metre)];
    let page = |entries: &[Entry]| {
        let mut sheet = [BLANK; 4 * SLOT];
        for entry in entries {
            let stores = 11 + entry.reply.len();
            assert_eq!(core.save(&mut sheet, entry, 99), Ok(stores));
        }
        core.summary_of(&sheet)
    };
    let lines = [
        line(7, 1, Some((2_999, 3_000)), [2, 1]),
        line(7, 2, Some((1, 1)), [1, 0]),
    ];
    let lines = Ok(summary(&lines, 0));
    let pages = (page(&first), page(&second));
    let (Ok(one), Ok(other)) = pages else {
        panic!("{pages:?}");
    };
    assert_eq!(core.summary_join(&one, &other), lines);
    assert_eq!(page(&[first, second].concat()), lines);
}
