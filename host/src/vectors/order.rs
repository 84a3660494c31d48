//! The board in address order, request 11.

use super::{number, number_and_place, plain};
use crate::calls::Core;
use crate::types::Row;
use std::fmt::Debug;

/// One call of the table.
#[derive(Clone, Copy, Debug)]
enum Call {
    /// Settings and address.
    Enrol(u8, u16),
    Hear(u16),
    Remove(u16),
    LookUp(u16),
    Poll(u16),
}

use Call::{Enrol, Hear, LookUp, Poll, Remove};

/// A call of a board of four rows, the number answered, and address and settings of the rows in
/// use then, which are the first ones.
type Step = (Call, u8, &'static [(u16, u8)]);

const CALLS: &[Step] = &[
    (Enrol(1, 30), 0, &[(30, 1)]),
    (Enrol(2, 7), 0, &[(7, 2), (30, 1)]),
    (Enrol(3, 999), 0, &[(7, 2), (30, 1), (999, 3)]),
    (Enrol(2, 7), 18, &[(7, 2), (30, 1), (999, 3)]),
    (Hear(7), 0, &[(7, 2), (30, 1), (999, 3)]),
    (Enrol(0, 8), 0, &[(7, 2), (8, 0), (30, 1), (999, 3)]),
    (Enrol(0, 9), 19, &[(7, 2), (8, 0), (30, 1), (999, 3)]),
    (Remove(7), 0, &[(8, 0), (30, 1), (999, 3)]),
    (Remove(7), 17, &[(8, 0), (30, 1), (999, 3)]),
    (Enrol(1, 0), 0, &[(0, 1), (8, 0), (30, 1), (999, 3)]),
    (Remove(999), 0, &[(0, 1), (8, 0), (30, 1)]),
    (LookUp(30), 0, &[(0, 1), (8, 0), (30, 1)]),
    (Poll(30), 0, &[(0, 1), (8, 0), (30, 1)]),
];

/// Makes a call and answers its number.
fn call<C: Core>(core: &C, rows: &mut [C::Row], call: Call) -> u8 {
    match call {
        Enrol(settings, address) => number(&core.enrol(rows, settings, address, 0)),
        Hear(address) => {
            let settings = core.look_up(rows, address).map_or(0, |row| row.settings);
            let mut reply = [0; 5];
            let written = core.write_reply(settings, address, &plain(100), &mut reply);
            assert_eq!(written, Ok(5));
            number(&core.hear(rows, 600, address, 40, &reply))
        }
        Remove(address) => number(&core.remove(rows, address)),
        LookUp(address) => number(&core.look_up(rows, address)),
        Poll(address) => number(&core.poll_row(rows, address, 0, 0, &mut [0; 2])),
    }
}

pub fn in_order<C: Core>(core: &C) {
    let mut rows = vec![core.row(&Row::default()); 4];
    for &(asked, answer, stands) in CALLS {
        assert_eq!(call(core, &mut rows, asked), answer, "{asked:?}");
        let says: Vec<Row> = rows.iter().map(|row| core.says(row)).collect();
        let used: Vec<(u16, u8)> = says
            .iter()
            .take_while(|row| row.in_use)
            .map(|row| (row.address, row.settings))
            .collect();
        assert_eq!(used, stands, "{asked:?}");
        assert!(says[used.len()..].iter().all(|row| *row == Row::default()));
    }
}

/// A row in use with this address, and a free one with this address left in it.
fn used(address: u16) -> Row {
    Row {
        in_use: true,
        address,
        ..Row::default()
    }
}

fn free(address: u16) -> Row {
    Row {
        address,
        ..Row::default()
    }
}

/// Boards as they are lent, and whether they are kept in order.
pub fn lent<C: Core>(core: &C) {
    let mut thirty: Vec<Row> = (1..=30).map(used).collect();
    thirty.push(used(0));
    let boards = [
        (vec![], true),
        (vec![free(9), free(3)], true),
        (vec![used(7), used(8), free(0)], true),
        (vec![used(7), used(7)], false),
        (vec![used(8), used(7)], false),
        (vec![free(0), used(7)], false),
        (vec![used(7), free(0), used(8)], false),
        (vec![used(7), used(5_000)], true),
        (thirty, true),
    ];
    for (says, kept) in boards {
        let rows: Vec<C::Row> = says.iter().map(|row| core.row(row)).collect();
        let answer = number(&core.look_up(&rows, 1_000));
        assert_eq!(answer, if kept { 11 } else { 38 }, "{says:?}");
    }
}

/// Every call of rows that are out of order is refused by 38 before all else, and changes nothing.
pub fn out_of_order<C: Core>(core: &C)
where
    C::Row: PartialEq + Debug,
{
    let mut rows = vec![core.row(&used(8)), core.row(&used(7))];
    let before = rows.clone();
    assert_eq!(number(&core.enrol(&mut rows, 16, 1_000, 0)), 38);
    let heard = core.hear(&mut rows, 600, 1_000, 40, b"\x80\x0e\x50\x00\x00");
    assert_eq!(number_and_place(heard), (38, 0));
    assert_eq!(number(&core.remove(&mut rows, 1_000)), 38);
    assert_eq!(number(&core.look_up(&rows, 7)), 38);
    let mut out = [0x55; 2];
    assert_eq!(number(&core.poll_row(&rows, 7, 1, 1, &mut out)), 38);
    assert_eq!((rows, out), (before, [0x55; 2]));
}

/// What is left in free rows: the first is used up, and those behind it keep theirs.
pub fn left_over<C: Core>(core: &C) {
    let left = |heard| Row {
        heard,
        ..Row::default()
    };
    let lent = [used(7), used(9), left(77), left(88)];
    let mut rows: Vec<C::Row> = lent.iter().map(|row| core.row(row)).collect();
    let says = |rows: &[C::Row]| -> Vec<Row> { rows.iter().map(|row| core.says(row)).collect() };
    assert_eq!(number(&core.enrol(&mut rows, 0, 8, 0)), 0);
    assert_eq!(says(&rows), [used(7), used(8), used(9), left(88)]);
    assert_eq!(number(&core.remove(&mut rows, 7)), 0);
    assert_eq!(says(&rows), [used(8), used(9), Row::default(), left(88)]);
}
