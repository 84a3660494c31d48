//! The desk summary, request 03.

use super::{entry, plain, SILENT};
use crate::calls::Summaries;
use crate::reading::frame::write_reply;
use crate::types::summaries::{Line, Summary, NO_LEVEL};
use crate::types::{Fault, BLANK, SLOT};

/// Stores enough for any save.
const ENOUGH: usize = 99;

/// A line: address, settings, the lowest and the highest level, good and faulty replies.
pub fn line(address: u16, settings: u16, levels: Option<(u16, u16)>, counts: [u32; 2]) -> Line {
    let (lowest, highest) = levels.unwrap_or((NO_LEVEL, NO_LEVEL));
    let [good, faulty] = counts;
    Line {
        address,
        settings,
        lowest,
        highest,
        good,
        faulty,
    }
}

pub fn summary(lines: &[Line], others: u32) -> Summary {
    let mut summary = Summary {
        count: lines.len() as u32,
        others,
        ..Summary::default()
    };
    summary.lines[..lines.len()].copy_from_slice(lines);
    summary
}

/// A summary that says it has 31 lines.
pub fn too_many() -> Summary {
    Summary {
        count: 31,
        ..Summary::default()
    }
}

/// One line of address 7 by decimal settings, with so many good replies between 5 and 9.
pub fn good(good: u32) -> Summary {
    summary(&[line(7, 1, Some((5, 9)), [good, 0])], 0)
}

/// A reply of 40 bits at this level.
pub fn reply(settings: u8, address: u16, level: u16) -> [u8; 5] {
    let mut out = [0; 5];
    let written = write_reply(settings, address, &plain(level), &mut out);
    assert_eq!(written, Ok(5));
    out
}

/// A sheet and the summary kept beside it.
struct Page<'a, C: Summaries> {
    core: &'a C,
    sheet: Vec<u8>,
    summary: Summary,
}

impl<'a, C: Summaries> Page<'a, C> {
    fn new(core: &'a C, slots: usize) -> Self {
        Page {
            core,
            sheet: vec![BLANK; slots * SLOT],
            summary: Summary::default(),
        }
    }

    /// Saves a reply of a pair and answers the stores made, or the number it was refused by. At any
    /// moment the summary is the one worked out from the sheet.
    fn save(&mut self, pair: (u16, u8), reply: &[u8], allowance: usize) -> Result<usize, u8> {
        let (address, settings) = pair;
        let entry = entry(settings, address, reply);
        let kept = self
            .core
            .summary_save(&mut self.sheet, &self.summary, &entry, allowance);
        self.summary = kept.summary;
        let afresh = self.core.summary_of(&self.sheet);
        assert_eq!(afresh, Ok(kept.summary), "{entry:?}");
        kept.answer.map_err(Fault::number)
    }
}

/// Saves that are closed, broken and refused, on a sheet of six slots: pair, reply, allowance,
/// answer and the lines after it.
pub fn saves(core: &impl Summaries) {
    let (high, low, outside) = (reply(1, 7, 3_000), reply(1, 7, 2_999), reply(0, 7, 8_000));
    let first = [line(7, 1, Some((3_000, 3_000)), [1, 0])];
    let second = [line(7, 1, Some((2_999, 3_000)), [2, 0])];
    let seven = line(7, 1, Some((2_999, 3_000)), [2, 1]);
    let two = [line(3, 1, None, [0, 1]), seven];
    let three = [two[0], line(7, 0, Some((8_000, 8_000)), [1, 0]), seven];
    type Save<'a> = ((u16, u8), &'a [u8], usize, Result<usize, u8>, &'a [Line]);
    let table: [Save; 8] = [
        ((7, 1), &high, ENOUGH, Ok(16), &first),
        ((7, 1), &low, ENOUGH, Ok(16), &second),
        ((7, 1), SILENT, ENOUGH, Ok(11), &[seven]),
        ((3, 1), SILENT, ENOUGH, Ok(11), &two),
        ((7, 0), &outside, 15, Ok(15), &two),
        ((1_000, 1), SILENT, ENOUGH, Err(11), &two),
        ((7, 0), &outside, 16, Ok(16), &three),
        ((9, 1), SILENT, ENOUGH, Err(13), &three),
    ];
    let mut page = Page::new(core, 6);
    for (pair, reply, allowance, answer, lines) in table {
        let answered = page.save(pair, reply, allowance);
        assert_eq!(answered, answer, "{pair:?} {reply:02x?}");
        assert_eq!(page.summary, summary(lines, 0), "{pair:?} {reply:02x?}");
    }
}

/// The first thirty pairs of the list have lines, whatever their addresses; records of others are
/// counted alike, good or faulty.
pub fn thirty_pairs(core: &impl Summaries) {
    let mut page = Page::new(core, 40);
    for address in 100..=130 {
        assert_eq!(
            page.save((address, 1), &reply(1, address, 10), ENOUGH),
            Ok(16)
        );
    }
    assert_eq!((page.summary.count, page.summary.others), (30, 1));
    assert_eq!(page.save((130, 1), &reply(1, 130, 10), ENOUGH), Ok(16));
    assert_eq!(page.save((130, 1), SILENT, ENOUGH), Ok(11));
    assert_eq!(page.save((100, 1), &reply(1, 100, 5), ENOUGH), Ok(16));
    let ten = |address| line(address, 1, Some((10, 10)), [1, 0]);
    let mut lines: Vec<Line> = (100..130).map(ten).collect();
    lines[0] = line(100, 1, Some((5, 10)), [2, 0]);
    assert_eq!(page.summary, summary(&lines, 3));

    // The same from the highest address down: now the one without a line is the lowest.
    let mut page = Page::new(core, 40);
    for address in (1..=31).rev() {
        assert_eq!(page.save((address, 1), SILENT, ENOUGH), Ok(11));
    }
    let silent = |address| line(address, 1, None, [0, 1]);
    let lines: Vec<Line> = (2..=31).map(silent).collect();
    assert_eq!(page.summary, summary(&lines, 1));
}

/// A summary handed in with a save of level 7 at address 7: what it answers on a sheet of 31 bytes
/// and on one of 32, and the summary after the latter.
fn handed_in(core: &impl Summaries, page: &Summary, answers: [Result<usize, u8>; 2]) -> Summary {
    let reply = reply(1, 7, 7);
    let mut last = *page;
    for (bytes, answer) in [SLOT - 1, SLOT].into_iter().zip(answers) {
        let blank = vec![BLANK; bytes];
        let mut sheet = blank.clone();
        let kept = core.summary_save(&mut sheet, page, &entry(1, 7, &reply), ENOUGH);
        let answered = kept.answer.map_err(Fault::number);
        assert_eq!(answered, answer, "{bytes} bytes, {page:?}");
        assert_eq!(sheet == blank, answer.is_err(), "{bytes} bytes, {page:?}");
        if answer.is_err() {
            assert_eq!(kept.summary, *page, "{bytes} bytes");
        }
        last = kept.summary;
    }
    last
}

/// Summaries that are refused before the save's own refusals are asked, and nothing changed.
pub fn refused(core: &impl Summaries) {
    let plain = line(7, 1, Some((5, 9)), [1, 0]);
    let one = |line| summary(&[line], 0);
    let mut unused = one(plain);
    unused.lines[1].faulty = 1;
    let lowest_alone = Line {
        highest: NO_LEVEL,
        ..line(7, 1, Some((5, 9)), [2, 0])
    };
    let lower = line(7, 0, Some((5, 9)), [1, 0]);
    let table = [
        (too_many(), 37),
        (unused, 37),
        (summary(&[plain, plain], 0), 37),
        (summary(&[plain, lower], 0), 37),
        (one(line(7, 1, Some((5, 9)), [0, 0])), 37),
        (one(line(7, 1, None, [2, 0])), 37),
        (one(lowest_alone), 37),
        (good(1_000_001), 24),
        (summary(&[plain], 1_000_001), 24),
        (summary(&[plain, plain], 1_000_001), 37),
    ];
    for (page, number) in table {
        handed_in(core, &page, [Err(number); 2]);
    }
}

/// Summaries that no refusal names, though no sheet has them: handed in, and after the save.
pub fn taken(core: &impl Summaries) {
    let one = |line| summary(&[line], 0);
    let seven = |levels, good| line(7, 1, levels, [good, 0]);
    let far = line(5_000, 300, Some((5, 9)), [1, 0]);
    let table = [
        // lowest above highest
        (one(seven(Some((9, 5)), 2)), one(seven(Some((7, 7)), 3))),
        // no reply at all
        (one(seven(None, 0)), one(seven(Some((7, 7)), 1))),
        // an address and settings that no transmitter has
        (one(far), summary(&[seven(Some((7, 7)), 1), far], 0)),
        (good(1_000_000), good(1_000_001)),
    ];
    for (page, after) in table {
        let kept = handed_in(core, &page, [Err(12), Ok(16)]);
        assert_eq!(kept, after, "{page:?}");
    }
}

/// What is worked out from a sheet of no slots, and of a size that is refused.
pub fn sizes(core: &impl Summaries) {
    assert_eq!(core.summary_of(&[BLANK; SLOT - 1]), Err(Fault::Sheet));
    assert_eq!(core.summary_of(&[]), Ok(Summary::default()));
}
