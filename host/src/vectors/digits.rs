//! Which digit was unreadable, request 02.

use super::{entry, number_and_place, thirty, Board, GOOD, SILENT};
use crate::calls::Core;
use crate::types::{Row, BLANK, LINE, SLOT};
use std::fmt::Debug;

/// Decimal 30.00 with the tenths 1111, and with the hundredths 1011.
const TENTHS: &[u8] = b"\x80\x0e\x51\xe0\x00";
const HUNDREDTHS: &[u8] = b"\x80\x0e\x50\x16\x01";

/// Settings, a reply of address 7, and the number and place that it is refused by. Places count
/// from 0 at the top; a place of 0 is none.
const NAMED: [(&str, u8, &[u8], (u8, u8)); 12] = [
    ("decimal, outside", 1, b"\x80\x0e\xff\xfe\x01", (7, 1)),
    ("fractional, outside", 0, b"\x80\x0e\xff\xfe\x01", (7, 1)),
    ("20 m, outside", 2, b"\x80\x0f\xff\xff\x01", (7, 1)),
    ("30 m, outside", 3, b"\x80\x0f\xff\xff\x80", (7, 1)),
    ("tenths", 1, TENTHS, (7, 2)),
    ("hundredths", 1, HUNDREDTHS, (7, 3)),
    ("both", 1, b"\x80\x0e\x51\xf6\x01", (7, 2)),
    ("inches", 0, b"\x80\x0e\x0f\x40\x01", (7, 2)),
    ("millimetres", 2, b"\x80\x0e\x80\x0d\x00", (7, 4)),
    ("millimetres of 30 m", 3, b"\x80\x0f\x22\xc7\x81", (7, 4)),
    ("tenths and fill", 1, b"\x80\x0e\x51\xe0\x81", (6, 0)),
    ("tenths and parity", 1, b"\x80\x0e\x51\xe0\x01", (5, 0)),
];

/// Both readers and the board name the first digit that is in no chart.
pub fn named(core: &impl Core) {
    for (what, settings, reply, told) in NAMED {
        let read = core.read_reply(settings, 7, 40, reply);
        assert_eq!(number_and_place(read), told, "{what}");
        let read = core.read_reply_by_pairs(settings, 7, 40, reply);
        assert_eq!(number_and_place(read), told, "{what}, by pairs");
        let mut rows = [core.row(&Row::default())];
        assert_eq!(core.enrol(&mut rows, settings, 7, 0), Ok(()));
        let heard = core.hear(&mut rows, 600, 7, 40, reply);
        assert_eq!(number_and_place(heard), told, "{what}, heard");
    }
}

/// The listing prints the place after the number, as a whole and line by line.
pub fn listed(core: &impl Core) {
    let mut sheet = [BLANK; 3 * SLOT];
    for reply in [HUNDREDTHS, GOOD] {
        assert_eq!(core.save(&mut sheet, &entry(1, 7, reply), 99), Ok(16));
    }
    let mut text = Vec::new();
    core.list(&sheet, &mut text);
    let lines = "sheet 3\n0 600 7 fault 7 3\n1 600 7 3000 - 0 0\nrecords 2\n";
    assert_eq!(String::from_utf8_lossy(&text), lines);
    let mut line = [0; LINE];
    let bytes = core.slot_line(&sheet, 0, &mut line).unwrap_or_default();
    assert_eq!(&line[..bytes], b"0 600 7 fault 7 3\n");
}

/// Each hearing answers number and place, and the row has them until the next; the reading and its
/// minute are those of the last good reply.
pub fn heard<C: Core>(core: &C)
where
    C::Row: PartialEq + Debug,
{
    let mut board = Board::new(core);
    // reply, number and place, minute of the reading, faulty replies since
    let hearings = [
        (GOOD, (0, 0), 600, 0),
        (HUNDREDTHS, (7, 3), 600, 1),
        (TENTHS, (7, 2), 600, 2),
        (SILENT, (1, 0), 600, 3),
        (TENTHS, (7, 2), 600, 4),
        (GOOD, (0, 0), 605, 0),
    ];
    for (minute, (reply, (fault, place), good, faulty)) in (600..).zip(hearings) {
        let answer = board.hear(minute, 7, reply);
        assert_eq!(number_and_place(answer), (fault, place), "at {minute}");
        let row = Row {
            last: thirty(good),
            fault,
            place,
            faulty,
            heard: minute,
            ..Board::<C>::ENROLLED
        };
        board.stands(&row, &format!("at {minute}"));
        let told = core.look_up(&board.rows, 7);
        let told = told.map(|row| (row.last, row.fault, row.place));
        assert_eq!(told, Ok((thirty(good), fault, place)), "at {minute}");
    }
}

/// A look tells the place byte of a row lent with fault 7 as it stands, and none beside any other.
pub fn looked_at<C: Core>(core: &C)
where
    C::Row: PartialEq + Debug,
{
    for (fault, place, told) in [(7, 200, 200), (5, 200, 0), (7, 0, 0)] {
        let row = Row {
            fault,
            place,
            ..Board::<C>::ENROLLED
        };
        let looked = core.look_up(&[core.row(&row)], 7);
        let looked = looked.map(|row| (row.fault, row.place));
        assert_eq!(looked, Ok((fault, told)), "fault {fault}, place {place}");
    }
}
