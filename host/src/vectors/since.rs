//! How long it has been bad, request 09.

use super::{number, thirty, Board, GOOD, SILENT, WRONG_PARITY};
use crate::calls::Core;
use crate::types::{Fault, Row};
use std::fmt::Debug;

/// Nine bytes have no form.
const OUT_OF_FORM: &[u8] = &[0; 9];

/// What stands in the row of address 7 after a call, and what a look tells of its latest hearing.
struct Since {
    /// Minute of the last good reading, which is of 30.00 and without temperature.
    good: Option<u32>,
    fault: u8,
    faulty: u16,
    heard: u32,
    told: Option<u32>,
}

/// The same in a line of a table.
const fn since(good: Option<u32>, fault: u8, faulty: u16, heard: u32, told: Option<u32>) -> Since {
    Since {
        good,
        fault,
        faulty,
        heard,
        told,
    }
}

impl<C: Core> Board<'_, C>
where
    C::Row: PartialEq + Debug,
{
    /// A minute, an address, a reply and the number that hearing it answers.
    fn hears(&mut self, asked: (u32, u16, &[u8], u8), after: &Since) {
        let (minute, address, reply, answer) = asked;
        let answered = self.hear(minute, address, reply);
        assert_eq!(number(&answered), answer, "hear {address} at {minute}");
        self.tells(1, after, &format!("hear {address} at {minute}"));
    }

    /// The row by these settings, and the look at it.
    fn tells(&self, settings: u8, since: &Since, after: &str) {
        let row = Row {
            settings,
            last: since.good.and_then(thirty),
            fault: since.fault,
            faulty: since.faulty,
            heard: since.heard,
            ..Self::ENROLLED
        };
        self.stands(&row, after);
        let told = self.core.look_up(&self.rows, 7);
        let told = told.map(|row| (row.settings, row.last, row.fault, row.faulty, row.heard));
        let expected = (settings, row.last, row.fault, row.faulty, since.told);
        assert_eq!(told, Ok(expected), "{after}");
    }

    /// The host itself changes the first row.
    fn set(&mut self, change: impl Fn(&mut Row)) {
        let mut row = self.core.says(&self.rows[0]);
        change(&mut row);
        self.rows[0] = self.core.row(&row);
    }
}

/// Faulty replies are counted from the enrolment and from each good reply on; the minute is that of
/// the latest hearing, by whatever clock.
fn counted<C: Core>(board: &mut Board<C>)
where
    C::Row: PartialEq + Debug,
{
    board.tells(1, &since(None, 0, 0, 0, None), "enrolled");
    let hearings = [
        ((10, 7, OUT_OF_FORM, 14), since(None, 0, 0, 0, None)),
        ((0, 7, SILENT, 1), since(None, 1, 1, 0, Some(0))),
        ((500, 7, WRONG_PARITY, 5), since(None, 5, 2, 500, Some(500))),
        ((600, 7, GOOD, 0), since(Some(600), 0, 0, 600, Some(600))),
        (
            (700, 7, WRONG_PARITY, 5),
            since(Some(600), 5, 1, 700, Some(700)),
        ),
        // The clock went back.
        (
            (650, 7, WRONG_PARITY, 5),
            since(Some(600), 5, 2, 650, Some(650)),
        ),
        ((800, 8, GOOD, 17), since(Some(600), 5, 2, 650, Some(650))),
        ((640, 7, GOOD, 0), since(Some(640), 0, 0, 640, Some(640))),
    ];
    for (asked, after) in hearings {
        board.hears(asked, &after);
    }
}

/// The count stays at the largest that it has room for.
fn most<C: Core>(board: &mut Board<C>)
where
    C::Row: PartialEq + Debug,
{
    board.set(|row| (row.faulty, row.fault) = (65_534, 5));
    let hearings = [
        (
            (900, 7, SILENT, 1),
            since(Some(640), 1, 65_535, 900, Some(900)),
        ),
        (
            (901, 7, SILENT, 1),
            since(Some(640), 1, 65_535, 901, Some(901)),
        ),
        ((902, 7, GOOD, 0), since(Some(902), 0, 0, 902, Some(902))),
    ];
    for (asked, after) in hearings {
        board.hears(asked, &after);
    }
}

/// The whole table, on a board of three rows.
pub fn a_row<C: Core>(core: &C)
where
    C::Row: PartialEq + Debug,
{
    let mut board = Board::new(core);
    counted(&mut board);
    most(&mut board);
    board.set(|row| row.settings = 16);
    assert_eq!(number(&board.hear(903, 7, GOOD)), 10);
    let as_before = since(Some(902), 0, 0, 902, Some(902));
    board.tells(16, &as_before, "hear by settings 16");
    assert_eq!(core.remove(&mut board.rows, 7), Ok(()));
    board.stands(&Row::default(), "removed");
    assert_eq!(core.look_up(&board.rows, 7), Err(Fault::Unknown));
    assert_eq!(core.enrol(&mut board.rows, 1, 7, 0), Ok(()));
    board.tells(1, &since(None, 0, 0, 0, None), "enrolled again");
}
