//! Sensor profiles and the poll of a 6500, request 10.

use super::{number, number_and_place, plain};
use crate::calls::Core;
use crate::types::{Answer, Reading, Row, Temperature};
use std::fmt::Debug;

/// Settings, address and gauge (1 copper, 2 platinum, 4 the 6500), and the number answered.
const ENROLMENTS: &[(u8, u16, u8, u8)] = &[
    (16, 1_000, 1, 10),
    (5, 1_000, 1, 11),
    (5, 7, 1, 27),
    (5, 7, 3, 0),
    (5, 7, 6, 27),
    (1, 7, 1, 18),
    (5, 7, 1, 27),
    (0, 8, 6, 0),
    (4, 9, 4, 0),
    (1, 10, 0, 0),
    (1, 11, 250, 0),
    (1, 12, 0, 19),
];

/// Address and tenths of a degree, the number that hearing them answers, and in the row then the
/// fault, the tenths, none where the last good reply had no temperature, and the faulty replies.
type Hearing = (u16, Option<i16>, u8, (u8, Option<i16>, u16));

const HEARINGS: &[Hearing] = &[
    (7, Some(-1_000), 0, (0, Some(-1_000), 0)),
    (7, Some(-1_001), 26, (26, Some(-1_000), 1)),
    (7, Some(4_000), 0, (0, Some(4_000), 0)),
    (7, Some(4_001), 26, (26, Some(4_000), 1)),
    (7, None, 0, (0, None, 0)),
    (7, Some(7_999), 26, (26, None, 1)),
    (8, Some(-2_340), 0, (0, Some(-2_340), 0)),
    (8, Some(-2_341), 26, (26, Some(-2_340), 1)),
    (8, Some(5_020), 0, (0, Some(5_020), 0)),
    (8, Some(5_021), 26, (26, Some(5_020), 1)),
    (10, Some(7_999), 0, (0, Some(7_999), 0)),
    (9, Some(1_999), 0, (0, Some(1_999), 0)),
];

/// Address, raise, reset and bytes of room, and the number answered with the bytes written.
type Asked = (u16, u8, u8, usize, u8, &'static [u8]);

const POLLS: &[Asked] = &[
    (8, 1, 0, 2, 0, b"\xa0\x08"),
    (8, 0, 1, 2, 0, b"\x90\x08"),
    (8, 0, 0, 2, 0, b"\x80\x08"),
    (8, 1, 1, 2, 28, b""),
    (7, 0, 0, 2, 0, b"\x80\x07"),
    (7, 1, 0, 2, 28, b""),
    (7, 1, 1, 1, 28, b""),
    (7, 0, 0, 1, 15, b""),
    (999, 1, 1, 0, 17, b""),
    (1_000, 1, 1, 0, 11, b""),
    (9, 255, 0, 9, 0, b"\xa0\x09"),
];

/// A board of five rows after the enrolments; address 7 is then removed, which leaves a cleared row
/// behind the others, and taken again with a copper bulb.
fn board<C: Core>(core: &C) -> Vec<C::Row>
where
    C::Row: PartialEq + Debug,
{
    let mut rows = vec![core.row(&Row::default()); 5];
    for &(settings, address, gauge, answer) in ENROLMENTS {
        let answered = core.enrol(&mut rows, settings, address, gauge);
        assert_eq!(number(&answered), answer, "{settings} {address} {gauge}");
    }
    assert_eq!(core.remove(&mut rows, 7), Ok(()));
    assert_eq!(rows[4], core.row(&Row::default()));
    assert_eq!(core.enrol(&mut rows, 1, 7, 1), Ok(()));
    rows
}

/// What a look tells of each gauge: its profile and its mark, whatever else stands in the byte.
pub fn enrolled<C: Core>(core: &C)
where
    C::Row: PartialEq + Debug,
{
    let rows = board(core);
    for (address, gauge) in [(7, 1), (8, 6), (9, 4), (10, 0), (11, 2)] {
        let told = core.look_up(&rows, address).map(|row| row.gauge);
        assert_eq!(told, Ok(gauge), "{address}");
    }
}

/// The reply of a transmitter with this temperature.
fn reply(core: &impl Core, settings: u8, address: u16, tenths: Option<i16>) -> Vec<u8> {
    let reading = Reading {
        temperature: tenths.map_or(Temperature::Absent, Temperature::Degrees),
        ..plain(100)
    };
    let mut out = vec![0; 7];
    let written = core.write_reply(settings, address, &reading, &mut out);
    assert_eq!(written, Ok(if tenths.is_some() { 7 } else { 5 }));
    out.truncate(written.unwrap_or(0));
    out
}

fn hear<C: Core>(core: &C, rows: &mut [C::Row], address: u16, reply: &[u8]) -> Answer<()> {
    core.hear(rows, 600, address, 8 * reply.len(), reply)
}

pub fn heard<C: Core>(core: &C)
where
    C::Row: PartialEq + Debug,
{
    let mut rows = board(core);
    for &(address, tenths, answer, stands) in HEARINGS {
        let told = core.look_up(&rows, address).map(|row| row.settings);
        let sent = reply(core, told.unwrap_or(0), address, tenths);
        let answered = hear(core, &mut rows, address, &sent);
        assert_eq!(number_and_place(answered), (answer, 0), "{address}");
        let row = core.look_up(&rows, address).map(|row| {
            let tenths = row.last.map(|last| last.reading.temperature);
            let tenths = match tenths {
                Some(Temperature::Degrees(tenths)) => Some(tenths),
                _ => None,
            };
            (row.fault, tenths, row.faulty)
        });
        assert_eq!(row, Ok(stands), "{address} after {tenths:?}");
    }
    // The level is asked before the profile: an unreadable digit with 799.9 degrees is 7.
    let sent = unreadable(&reply(core, 1, 7, Some(7_999)));
    let answered = hear(core, &mut rows, 7, &sent);
    assert_eq!(number_and_place(answered), (7, 2));
    // An 1800 row that no enrolment made is not checked.
    let lent = Row {
        in_use: true,
        address: 7,
        settings: 5,
        gauge: 1,
        ..Row::default()
    };
    let mut rows = [core.row(&lent)];
    let sent = reply(core, 5, 7, Some(1_999));
    let answered = hear(core, &mut rows, 7, &sent);
    assert_eq!(number_and_place(answered), (0, 0));
}

/// A decimal reply of 56 bits with a code in no chart for its tenths, of even parity again.
fn unreadable(reply: &[u8]) -> Vec<u8> {
    let mut bytes = [0; 8];
    bytes[..7].copy_from_slice(reply);
    let mut word = u64::from_be_bytes(bytes) | 0xF << 37;
    if word.count_ones() % 2 == 1 {
        word ^= 1 << 8;
    }
    word.to_be_bytes()[..7].to_vec()
}

pub fn polled<C: Core>(core: &C)
where
    C::Row: PartialEq + Debug,
{
    let rows = board(core);
    for &(address, raise, reset, room, answer, bytes) in POLLS {
        let mut out = vec![0x55; room];
        let mut left = out.clone();
        left[..bytes.len()].copy_from_slice(bytes);
        let answered = core.poll_row(&rows, address, raise, reset, &mut out);
        let asked = format!("{address} {raise} {reset} {room}");
        assert_eq!((number(&answered), out), (answer, left), "{asked}");
    }
}
