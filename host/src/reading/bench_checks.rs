//! Every bench check of document 01, starred and not, held against the reading.

use super::frame::{read_poll, read_reply, write_poll, write_reply};
use super::sheet::{list, look, save};
use super::{board, listing};
use crate::types::{Entry, Fault, Poll, Reading, Record, Row, Slot, Temperature, ODD_PARITY};

const FRACTIONAL: u8 = 0;
const DECIMAL: u8 = 1;
const METRES_20: u8 = 2;
const METRES_30: u8 = 3;
const TYPE_1800: u8 = 4;

/// Address 7, decimal 30.00, no alarms, 40 bits, even.
const REPLY: [u8; 5] = [0x80, 0x0E, 0x50, 0x00, 0x00];

fn plain(level: u16) -> Reading {
    Reading {
        level,
        temperature: Temperature::Absent,
        alarm1: false,
        alarm0: false,
    }
}

fn with_temperature(temperature: Temperature) -> Reading {
    Reading {
        temperature,
        ..plain(0)
    }
}

/// The bits `first` and on of a reply as text, as many as `like` has, blanks apart.
fn bits_like(reply: &[u8], first: usize, like: &str) -> String {
    let mut bit = first - 1;
    let mut text = String::new();
    for mark in like.chars() {
        if mark == ' ' {
            text.push(' ');
        } else {
            text.push(if reply[bit / 8] >> (7 - bit % 8) & 1 == 1 {
                '1'
            } else {
                '0'
            });
            bit += 1;
        }
    }
    text
}

/// Puts marks into a reply from bit `first` on and mends an even parity.
fn put_bits(reply: &mut [u8], first: usize, marks: &str) {
    let places = marks.chars().filter(|&mark| mark != ' ').enumerate();
    for (n, mark) in places {
        let bit = first - 1 + n;
        let place = 0x80 >> (bit % 8);
        if mark == '1' {
            reply[bit / 8] |= place;
        } else {
            reply[bit / 8] &= !place;
        }
    }
    let ones: u32 = reply.iter().map(|byte| byte.count_ones()).sum();
    if let Some(last) = reply.last_mut() {
        *last ^= (ones & 1) as u8;
    }
}

#[test]
fn levels() {
    let table: [(u8, u16, usize, &str); 8] = [
        (DECIMAL, 2_999, 17, "011 1000 0000 0000"),
        (DECIMAL, 3_000, 17, "010 1000 0000 0000"),
        (FRACTIONAL, 5 * 192 + 11 * 16 + 15, 17, "000 0111 0000 0000"),
        (FRACTIONAL, 6 * 192, 17, "000 0101 0000 0000"),
        (METRES_20, 9_999, 16, "0 1000 0000 0000 0000"),
        (METRES_20, 10_000, 16, "1 1000 0000 0000 0000"),
        (METRES_20, 19_999, 16, "1 0000 0000 0000 0000"),
        (METRES_30, 32_699, 16, "10 0100 0101 1000 0000"),
    ];
    for (settings, level, first, marks) in table {
        let mut reply = [0; 5];
        assert_eq!(write_reply(settings, 7, &plain(level), &mut reply), Ok(5));
        assert_eq!(bits_like(&reply, first, marks), marks);
        let mut by_hand = [0x80, 0x0E, 0, 0, 0];
        put_bits(&mut by_hand, first, marks);
        assert_eq!(by_hand, reply);
        assert_eq!(read_reply(settings, 7, 40, &reply), Ok(plain(level)));
    }
}

#[test]
fn above_the_range_of_30_metres() {
    let mut reply = [0x80, 0x0E, 0, 0, 0];
    put_bits(&mut reply, 16, "10 0100 0100 1000 0000");
    assert_eq!(read_reply(METRES_30, 7, 40, &reply), Err(Fault::Range));
}

#[test]
fn an_invalid_level_is_all_marks_and_in_no_chart() {
    let places: [(u8, usize, &str); 4] = [
        (FRACTIONAL, 16, "0 111 1111 1111 1111 000000"),
        (DECIMAL, 16, "0 111 1111 1111 1111 000000"),
        (METRES_20, 16, "1 1111 1111 1111 1111 00000"),
        (METRES_30, 16, "11 1111 1111 1111 1111 0000"),
    ];
    for (mode, first, marks) in places {
        let level = crate::types::LARGEST_LEVEL[usize::from(mode)] + 1;
        let mut reply = [0; 5];
        assert_eq!(write_reply(mode, 7, &plain(level), &mut reply), Ok(5));
        assert_eq!(bits_like(&reply, first, marks), marks);
        assert_eq!(read_reply(mode, 7, 40, &reply), Err(Fault::Code1));
    }
}

#[test]
fn temperatures() {
    use Temperature::{Above, Below, Degrees};
    // settings, given, written, read back
    let table = [
        (0, Degrees(-123), "1011 0001 0010 0011", Degrees(-123)),
        (0, Degrees(7_999), "0100 1001 1001 1001", Degrees(7_999)),
        (0, Degrees(8_000), "0100 1001 1001 1001", Degrees(7_999)),
        (0, Above, "0100 1001 1001 1001", Degrees(7_999)),
        (0, Below, "0000 1001 1001 1001", Degrees(-7_999)),
        (0, Degrees(i16::MIN), "0000 1001 1001 1001", Degrees(-7_999)),
        (0, Degrees(0), "1111 0000 0000 0000", Degrees(0)),
        (
            TYPE_1800,
            Degrees(1_000),
            "0110 0000 0000 0000",
            Degrees(1_000),
        ),
        (
            TYPE_1800,
            Degrees(1_300),
            "0110 0011 0000 0000",
            Degrees(1_300),
        ),
        (
            TYPE_1800,
            Degrees(1_999),
            "0110 1001 1001 1001",
            Degrees(1_999),
        ),
        (TYPE_1800, Degrees(2_000), "0101 0000 0000 0000", Above),
        (TYPE_1800, Degrees(2_001), "0101 0000 0000 0000", Above),
        (TYPE_1800, Above, "0101 0000 0000 0000", Above),
        (TYPE_1800, Degrees(999), "0100 1001 1001 1001", Degrees(999)),
        (
            TYPE_1800,
            Degrees(-999),
            "0000 1001 1001 1001",
            Degrees(-999),
        ),
        (
            TYPE_1800,
            Degrees(-1_000),
            "0010 0000 0000 0000",
            Degrees(-1_000),
        ),
        (
            TYPE_1800,
            Degrees(-1_999),
            "0010 1001 1001 1001",
            Degrees(-1_999),
        ),
        (TYPE_1800, Degrees(-2_000), "1001 0000 0000 0000", Below),
        (TYPE_1800, Below, "1001 0000 0000 0000", Below),
        (TYPE_1800, Degrees(0), "0100 0000 0000 0000", Degrees(0)),
    ];
    for (settings, given, marks, back) in table {
        let mut reply = [0; 7];
        let given = with_temperature(given);
        assert_eq!(write_reply(settings, 7, &given, &mut reply), Ok(7));
        assert_eq!(bits_like(&reply, 40, marks), marks);
        let back = with_temperature(back);
        assert_eq!(read_reply(settings, 7, 56, &reply), Ok(back));
    }
}

#[test]
fn what_is_not_told_of_a_temperature() {
    use Temperature::{Above, Below, Degrees};
    let table = [
        (0, "1011 0000 0000 0000", Ok(Degrees(0))),
        (TYPE_1800, "0000 0000 0000 0000", Ok(Degrees(0))),
        (TYPE_1800, "0110 0000 0000 0001", Ok(Degrees(1_001))),
        (TYPE_1800, "0010 0000 0000 0000", Ok(Degrees(-1_000))),
        (TYPE_1800, "0111 0000 0000 0000", Ok(Above)),
        (TYPE_1800, "1011 0000 0000 0000", Ok(Below)),
        (TYPE_1800, "1010 0000 0000 0000", Err(Fault::Temperature)),
        (TYPE_1800, "0110 1010 0000 0000", Err(Fault::Temperature)),
        (TYPE_1800, "0011 1111 1111 1111", Ok(Above)),
        (TYPE_1800, "1111 1111 1111 1111", Ok(Below)),
        (TYPE_1800, "1100 0000 0000 0000", Err(Fault::Temperature)),
        (TYPE_1800, "0100 1010 0000 0000", Err(Fault::Temperature)),
        (0, "1111 0000 1010 0000", Err(Fault::Temperature)),
        (0, "1111 0000 0000 1010", Err(Fault::Temperature)),
    ];
    for (settings, marks, outcome) in table {
        let mut reply = [0x80, 0x0E, 0, 0, 0, 0, 0];
        put_bits(&mut reply, 40, marks);
        let outcome = outcome.map(with_temperature);
        assert_eq!(read_reply(settings, 7, 56, &reply), outcome);
    }
}

#[test]
fn the_reply_of_address_7() {
    let mut reply = [0xAA; 6];
    assert_eq!(write_reply(DECIMAL, 7, &plain(3_000), &mut reply), Ok(5));
    assert_eq!(reply[..5], REPLY);
    assert_eq!(reply[5], 0xAA);
    assert_eq!(read_reply(DECIMAL, 7, 40, &REPLY), Ok(plain(3_000)));
    let wrong = [0x80, 0x0E, 0x50, 0x00, 0x01];
    assert_eq!(read_reply(DECIMAL, 7, 40, &wrong), Err(Fault::Parity));
    let odd = DECIMAL | ODD_PARITY;
    assert_eq!(read_reply(odd, 7, 40, &wrong), Ok(plain(3_000)));
    assert_eq!(
        write_reply(DECIMAL, 7, &plain(3_000), &mut [0; 4]),
        Err(Fault::Short)
    );
}

#[test]
fn counts() {
    let mut long = [0; 7];
    assert_eq!(
        write_reply(DECIMAL, 7, &with_temperature(Temperature::Above), &mut long),
        Ok(7)
    );
    let read = |count, reply: &[u8]| read_reply(DECIMAL, 7, count, reply).map(|_| ());
    assert_eq!(read(0, &[]), Err(Fault::Silent));
    assert_eq!(read(39, &REPLY), Err(Fault::Length));
    assert_eq!(read(40, &REPLY), Ok(()));
    assert_eq!(read(41, &[0x80, 0x0E, 0x50, 0, 0, 0]), Err(Fault::Length));
    assert_eq!(read(56, &long), Ok(()));
    assert_eq!(read(64, &[0; 8]), Err(Fault::Length));
    assert_eq!(read(65, &[0; 9]), Err(Fault::Form));
    assert_eq!(read(usize::MAX, &REPLY), Err(Fault::Form));
    assert_eq!(read(39, &[0, 0, 0, 0, 1]), Err(Fault::Form));
    assert_eq!(read(40, &REPLY[..4]), Err(Fault::Form));
}

#[test]
fn addresses() {
    let mut reply = [0; 5];
    assert_eq!(write_reply(DECIMAL, 999, &plain(1), &mut reply), Ok(5));
    assert_eq!(read_reply(DECIMAL, 999, 40, &reply), Ok(plain(1)));
    assert_eq!(read_reply(DECIMAL, 998, 40, &reply), Err(Fault::Address));
    assert_eq!(
        read_reply(DECIMAL, 1_000, 40, &reply),
        Err(Fault::AskedAddress)
    );
    assert_eq!(
        write_reply(DECIMAL, 1_000, &plain(1), &mut []),
        Err(Fault::AskedAddress)
    );
    assert_eq!(read_reply(16, 1_000, 40, &[]), Err(Fault::Settings));

    let poll = |address| Poll {
        address,
        raise: true,
        reset: false,
    };
    let mut out = [0xAA; 3];
    assert_eq!(write_poll(&poll(999), &mut out), Ok(2));
    assert_eq!(out, [0xA9, 0x99, 0xAA]);
    assert_eq!(read_poll(&out[..2]), Ok(poll(999)));
    assert_eq!(read_poll(&[0xE9, 0x99]), Ok(poll(999)));
    assert_eq!(read_poll(&[0x29, 0x99]), Err(Fault::Poll));
    assert_eq!(read_poll(&[0xA9, 0x9A]), Err(Fault::Poll));
    assert_eq!(read_poll(&out), Err(Fault::Poll));
    assert_eq!(write_poll(&poll(1_000), &mut []), Err(Fault::AskedAddress));
    assert_eq!(write_poll(&poll(1), &mut [0]), Err(Fault::Short));
}

fn entry() -> Entry<'static> {
    Entry {
        settings: DECIMAL,
        minute: 600,
        address: 7,
        count: 40,
        reply: &REPLY,
    }
}

#[test]
fn sizes_of_sheets() {
    assert_eq!(save(&mut [], &entry(), 99), Err(Fault::Full));
    assert_eq!(save(&mut [0xFF; 31], &entry(), 99), Err(Fault::Sheet));
    assert_eq!(save(&mut [0xFF; 32], &entry(), 99), Ok(16));
    assert_eq!(look(&[], 0), Err(Fault::Sheet));
    assert_eq!(look(&[0xFF; 31], 0), Err(Fault::Sheet));
    assert_eq!(look(&[0xFF; 32], 0), Ok(Slot::Blank));
    assert_eq!(look(&[0xFF; 32], 1), Err(Fault::Sheet));
    let text = |sheet: &[u8]| {
        let mut text = Vec::new();
        listing::list(sheet, &mut text);
        String::from_utf8_lossy(&text).into_owned()
    };
    assert_eq!(text(&[]), "sheet 0\nrecords 0\n");
    assert_eq!(text(&[0xFF; 31]), "fault 12\n");
    assert_eq!(text(&[0xFF; 32]), "sheet 1\nrecords 0\n");
    assert_eq!(text(&vec![0xFF; 65_568]), "fault 12\n");
    assert_eq!(text(&vec![0xFF; 65_536]), "sheet 2048\nrecords 0\n");
}

#[test]
fn the_sheet_of_64_bytes() {
    let mut sheet = [0xFF; 64];
    assert_eq!(save(&mut sheet, &entry(), 15), Ok(15));
    assert_eq!(look(&sheet, 0), Ok(Slot::Spoiled));
    assert_eq!(list(&sheet), Ok(vec![]));

    let mut sheet = [0xFF; 64];
    assert_eq!(save(&mut sheet, &entry(), usize::MAX), Ok(16));
    let mut expected = [0xFF; 64];
    expected[..16].copy_from_slice(&[
        0x00, 0x0E, 0x01, 0x01, 0x00, 0x00, 0x02, 0x58, 0x00, 0x07, 0x28, 0x80, 0x0E, 0x50, 0x00,
        0x00,
    ]);
    assert_eq!(sheet, expected);
    let record = Record {
        settings: DECIMAL,
        minute: 600,
        address: 7,
        count: 40,
        reply: [0x80, 0x0E, 0x50, 0, 0, 0, 0, 0],
    };
    assert_eq!(look(&sheet, 0), Ok(Slot::Record(record)));
    assert_eq!(look(&sheet, 1), Ok(Slot::Blank));
    assert_eq!(list(&sheet), Ok(vec![record]));

    let mut text = Vec::new();
    listing::list(&sheet, &mut text);
    assert_eq!(text, b"sheet 2\n0 600 7 3000 - 0 0\nrecords 1\n");

    let mut lines = Vec::new();
    let mut line = [0; crate::types::LINE];
    for bytes in [
        listing::head_line(&sheet, &mut line).map(|n| line[..n].to_vec()),
        listing::slot_line(&sheet, 0, &mut line).map(|n| line[..n].to_vec()),
        listing::slot_line(&sheet, 1, &mut line).map(|n| line[..n].to_vec()),
        listing::last_line(&sheet, &mut line).map(|n| line[..n].to_vec()),
    ] {
        lines.extend(bytes.unwrap_or_default());
    }
    assert_eq!(lines, text);
}

#[test]
fn a_hole_is_not_filled_and_words_are_told() {
    let mut sheet = [0xFF; 160];
    sheet[33] = 0; // spoiled in slot 1
    sheet[64] = 0; // foreign in slot 2
    assert_eq!(save(&mut sheet, &entry(), 0), Ok(0));
    assert_eq!(save(&mut sheet, &entry(), 99), Ok(16));
    let silent = Entry {
        minute: u32::MAX,
        count: 0,
        reply: &[],
        ..entry()
    };
    assert_eq!(save(&mut sheet, &silent, 11), Ok(11));
    assert_eq!(save(&mut sheet, &silent, 0), Err(Fault::Full));
    let mut text = Vec::new();
    listing::list(&sheet, &mut text);
    let expected = "sheet 5\n1 spoiled\n2 foreign\n3 600 7 3000 - 0 0\n\
                    4 4294967295 7 fault 1\nrecords 2\n";
    assert_eq!(String::from_utf8_lossy(&text), expected);
}

#[test]
fn a_parity_fault_keeps_the_last_reading() {
    let mut rows = [Row::default(); 31];
    assert_eq!(board::enrol(&mut rows, DECIMAL, 7, 0), Ok(()));
    assert_eq!(board::enrol(&mut rows, DECIMAL, 7, 0), Err(Fault::Twice));
    assert_eq!(board::hear(&mut rows, 600, 7, 40, &REPLY), Ok(()));
    let wrong = [0x80, 0x0E, 0x50, 0x00, 0x01];
    assert_eq!(
        board::hear(&mut rows, 601, 7, 40, &wrong),
        Err(Fault::Parity)
    );
    let standing = board::look_up(&rows, 7);
    assert_eq!(
        standing.map(|s| s.last.map(|l| (l.reading.level, l.minute))),
        Ok(Some((3_000, 600)))
    );
    assert_eq!(standing.map(|s| s.fault), Ok(5));
    assert_eq!(
        board::hear(&mut rows, 601, 8, 40, &wrong),
        Err(Fault::Unknown)
    );
    assert_eq!(board::remove(&mut rows, 7), Ok(()));
    assert_eq!(rows, [Row::default(); 31]);
    for address in 0..30 {
        assert_eq!(board::enrol(&mut rows, 0, address, 0), Ok(()));
    }
    assert_eq!(board::enrol(&mut rows, 0, 30, 0), Err(Fault::NoRow));
    assert_eq!(rows[30], Row::default());
}
