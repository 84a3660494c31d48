//! What the types of the wrapper cannot ask: numbers that stand for flags, kinds and rows, and
//! what stands in an answer beside a refusal.

use super::{ffi, form, read_reply_by_pairs, slots, version, LentRow, Library, VERSION};
use crate::calls::Core;
use crate::desk;
use crate::generate::{self, BoardCall};
use crate::random::{Random, SEED};
use crate::reading::{board, frame, listing, sheet};
use crate::types::{Answer, Fault, Poll, Reading, Row, Slot, Temperature};

/// Flags that are set, and one that is not.
const FLAGS: [u8; 5] = [0, 1, 2, 128, 255];

/// The header, the archive and this wrapper are of one version.
#[test]
fn one_version() {
    let header = include_str!("../../../include/sisalcove.h");
    let line = format!("#define SISAL_VERSION {VERSION}u");
    assert!(header.lines().any(|text| text == line), "{line}");
    assert_eq!(version(), VERSION);
}

#[test]
fn a_day_at_the_desk() {
    desk::day(&Library);
}

/// The tables of the requests.
mod vectors {
    crate::vectors::tests_on!(crate::library::Library);
}

fn write_poll(address: u16, raise: u8, reset: u8) -> (Answer<usize>, [u8; 2]) {
    let mut out = [0; 2];
    // SAFETY: two bytes are lent, and to nobody else.
    let told = unsafe { ffi::sisal_write_poll(address, raise, reset, out.as_mut_ptr(), 2) };
    (super::done(told), out)
}

#[test]
fn raise_and_reset_are_set_by_any_number_but_0() {
    for raise in FLAGS {
        for reset in FLAGS {
            let poll = Poll {
                address: 310,
                raise: raise != 0,
                reset: reset != 0,
            };
            let mut out = [0; 2];
            let answer = frame::write_poll(&poll, &mut out);
            assert_eq!(write_poll(310, raise, reset), (answer, out));
        }
    }
}

#[test]
fn every_kind_is_a_temperature_and_alarms_are_set_by_any_number_but_0() {
    for kind in 0..=u8::MAX {
        for alarm1 in FLAGS {
            for (alarm0, tenths) in FLAGS.into_iter().zip([0, -123, 1_999, i16::MIN, i16::MAX]) {
                let reading = Reading {
                    level: 3_000,
                    temperature: match kind {
                        1 => Temperature::Degrees(tenths),
                        2 => Temperature::Above,
                        3 => Temperature::Below,
                        _ => Temperature::Absent,
                    },
                    alarm1: alarm1 != 0,
                    alarm0: alarm0 != 0,
                };
                for settings in [1, 5] {
                    let (mut out, mut other) = ([0; 7], [0; 7]);
                    // SAFETY: seven bytes are lent, and to nobody else.
                    let told = unsafe {
                        let out = out.as_mut_ptr();
                        ffi::sisal_write_reply(
                            settings, 7, 3_000, kind, tenths, alarm1, alarm0, out, 7,
                        )
                    };
                    let answer = frame::write_reply(settings, 7, &reading, &mut other);
                    assert_eq!((super::done(told), out), (answer, other), "{reading:?}");
                }
            }
        }
    }
}

#[test]
fn the_form_of_a_reply() {
    let mut random = Random::new(SEED, 0);
    for count in (0..=130).chain([usize::MAX, usize::MAX - 7, 1 << 32]) {
        for length in 0..=17 {
            for _ in 0..4 {
                let mut reply = [0; 17];
                if random.coin() {
                    random.fill(&mut reply);
                }
                let reply = &reply[..length];
                let bad = frame::read_reply(0, 0, count, reply) == Err(Fault::Form);
                let expected = if bad { Err(Fault::Form) } else { Ok(()) };
                assert_eq!(form(count, reply), expected, "{count} bits, {reply:02x?}");
            }
        }
    }
}

/// The second reader answers as the first: every digit field of the modes that it reads by pairs, and
/// replies of every kind, good and damaged.
#[test]
fn the_second_reader_answers_as_the_first() {
    let same = |settings, address, count, reply: &[u8]| {
        assert_eq!(
            read_reply_by_pairs(settings, address, count, reply),
            Library.read_reply(settings, address, count, reply),
            "settings {settings}, address {address}, {count} bits, {reply:02x?}"
        );
    };
    // mode, bits of its digits, fill bits after them
    for (mode, width, after) in [(1, 15, 6), (2, 17, 5), (3, 18, 4)] {
        for digits in 0..1_u64 << width {
            let word = 1 << 39 | 7 << 25 | digits << (3 + after);
            let odd = u64::from(word.count_ones() & 1);
            same(mode, 7, 40, &(word | odd).to_be_bytes()[3..]);
        }
    }
    let mut random = Random::new(SEED, 0);
    for _ in 0..100_000 {
        let case = generate::damaged_reply(&mut random);
        same(case.settings, case.address, case.count, case.reply());
    }
}

/// Beside a refusal all else is 0.
#[test]
fn a_refusal_answers_its_number_alone() {
    let mut random = Random::new(SEED, 0);
    for _ in 0..100_000 {
        let case = generate::damaged_reply(&mut random);
        let reply = case.reply();
        // SAFETY: the bytes of a slice are lent for reading.
        let told = unsafe {
            let bytes = reply.as_ptr();
            ffi::sisal_read_reply(case.settings, case.address, case.count, bytes, reply.len())
        };
        let rest = [told.kind, told.alarm1, told.alarm0];
        if told.number != 0 {
            assert_eq!((told.level, told.tenths, rest), (0, 0, [0; 3]), "{case:?}");
        } else if told.kind != super::DEGREES {
            assert_eq!(told.tenths, 0, "{case:?}");
        }
    }
    for word in 0..=u16::MAX {
        let poll = word.to_be_bytes();
        // SAFETY: two bytes are lent for reading.
        let told = unsafe { ffi::sisal_read_poll(poll.as_ptr(), 2) };
        if told.number != 0 {
            assert_eq!((told.address, told.raise, told.reset), (0, 0, 0));
        }
    }
    let (answer, out) = write_poll(1_000, 1, 1);
    assert_eq!((answer, out), (Err(Fault::AskedAddress), [0; 2]));
    // SAFETY: no byte is lent.
    let told = unsafe { ffi::sisal_write_poll(1, 0, 0, [].as_mut_ptr(), 0) };
    assert_eq!((told.number, told.count), (15, 0));
}

/// Only a record says more than what the slot reads as.
#[test]
fn a_slot_that_holds_no_record_says_nothing_else() {
    let mut random = Random::new(SEED, 0);
    for _ in 0..100_000 {
        let sheet = generate::hostile_slot(&mut random);
        let slot = random.below(2);
        // SAFETY: the bytes of a slice are lent for reading.
        let told = unsafe { ffi::sisal_look(sheet.as_ptr(), sheet.len(), slot) };
        let seen = Library.look(&sheet, slot);
        if !matches!(seen, Ok(Slot::Record(_))) {
            let rest = (told.minute, told.address, told.settings, told.count);
            assert_eq!((rest, told.reply), ((0, 0, 0, 0), [0; 8]), "{sheet:02x?}");
        }
        assert_eq!(told.state == 0, told.number != 0);
    }
}

/// A line into any number of bytes: all of it, or none.
#[test]
fn lines_into_too_few_bytes() {
    let mut random = Random::new(SEED, 0);
    for _ in 0..20_000 {
        let sheet = generate::hostile_slot(&mut random);
        let length = if random.one_in(8) { 31 } else { 32 };
        let (sheet, slot) = (&sheet[..length], random.below(2));
        let room = random.below(41);
        let lines: [(
            fn(&[u8], usize, &mut [u8]) -> _,
            fn(&[u8], usize, &mut [u8]) -> _,
        ); 3] = [
            (
                |sheet, _, out| Library.head_line(sheet, out),
                |sheet, _, out| listing::head_line(sheet, out),
            ),
            (
                |sheet, slot, out| Library.slot_line(sheet, slot, out),
                listing::slot_line,
            ),
            (
                |sheet, _, out| Library.last_line(sheet, out),
                |sheet, _, out| listing::last_line(sheet, out),
            ),
        ];
        for (line, other_line) in lines {
            let (mut out, mut other) = ([0xA5; 41], [0xA5; 41]);
            let answer = line(sheet, slot, &mut out[..room]);
            let expected = other_line(sheet, slot, &mut other[..room]);
            assert_eq!((answer, out), (expected, other), "{room} for {sheet:02x?}");
        }
    }
}

/// The whole listing asks for 40 bytes a line, whatever the lines are, and a bad size for the nine
/// bytes of its own.
#[test]
fn the_room_of_a_listing() {
    let listing = |sheet: &[u8], room: usize| {
        let mut out = [0xA5; 200];
        // SAFETY: a sheet is lent for reading, and bytes for writing to nobody else.
        let told =
            unsafe { ffi::sisal_listing(sheet.as_ptr(), sheet.len(), out.as_mut_ptr(), room) };
        (super::done(told), out)
    };
    for (length, room, bytes) in [(0, 80, 18), (32, 120, 18), (96, 200, 18), (31, 9, 9)] {
        let sheet = vec![0xFF; length];
        assert_eq!(listing(&sheet, room).0, Ok(bytes));
        assert_eq!(listing(&sheet, room - 1), (Err(Fault::Short), [0xA5; 200]));
    }
    assert_eq!(&listing(&[0; 31], 9).1[..10], b"fault 12\n\xA5");
}

#[test]
fn slots_of_a_sheet() {
    for length in (0..200).chain(65_500..65_600) {
        assert_eq!(
            slots(&vec![0xFF; length]),
            sheet::slots(&vec![0xFF; length])
        );
    }
}

/// Any row: numbers that the library never writes, too.
fn any_row(random: &mut Random) -> LentRow {
    LentRow {
        minute: random.next() as u32,
        address: random.below(12) as u16,
        level: random.next() as u16,
        tenths: random.next() as i16,
        settings: random.below(20) as u8,
        fault: random.byte(),
        used: if random.coin() { random.byte() } else { 0 },
        kind: if random.coin() {
            random.byte()
        } else {
            random.below(6) as u8
        },
        alarm1: random.byte(),
        alarm0: random.below(3) as u8,
        heard: random.next() as u32,
        faulty: random.next() as u16,
        place: random.byte(),
        gauge: random.byte(),
    }
}

/// The minute told of a row that was never heard is 0, whatever stands in the row.
#[test]
fn no_minute_is_told_of_a_row_never_heard() {
    for (kind, fault, told) in [(0, 0, 0), (0, 5, 500), (super::ABSENT, 0, 500)] {
        let row = LentRow {
            address: 7,
            used: 1,
            heard: 500,
            kind,
            fault,
            ..LentRow::default()
        };
        // SAFETY: one row is lent for reading.
        let standing = unsafe { ffi::sisal_board_look_up(&row, 1, 7) };
        let seen = (standing.number, standing.heard);
        assert_eq!(seen, (0, told), "kind {kind}, fault {fault}");
    }
}

/// One call of the library over its rows and of the independent reading over what they say.
fn call_both(call: &BoardCall, rows: &mut [LentRow], says: &mut [Row]) -> Answer<()> {
    let (answer, other) = match call {
        BoardCall::Enrol {
            settings,
            address,
            gauge,
        } => (
            Library.enrol(rows, *settings, *address, *gauge),
            board::enrol(says, *settings, *address, *gauge),
        ),
        BoardCall::Hear { minute, reply } => (
            Library.hear(rows, *minute, reply.address, reply.count, reply.reply()),
            board::hear(says, *minute, reply.address, reply.count, reply.reply()),
        ),
        BoardCall::Remove { address } => (
            Library.remove(rows, *address),
            board::remove(says, *address),
        ),
        BoardCall::LookUp { address } => {
            let answer = Library.look_up(rows, *address);
            assert_eq!(answer, board::look_up(says, *address), "{call:?}");
            return answer.map(|_| ());
        }
        BoardCall::Poll {
            address,
            raise,
            reset,
            room,
        } => {
            let (mut out, mut other) = ([0xA5; 4], [0xA5; 4]);
            let answer = Library.poll_row(rows, *address, *raise, *reset, &mut out[..*room]);
            let said = board::poll(says, *address, *raise, *reset, &mut other[..*room]);
            assert_eq!((answer, out), (said, other), "{call:?}");
            return answer;
        }
    };
    assert_eq!(answer, other, "{call:?}");
    answer
}

/// Enrolling and removing move rows.
fn moves(call: &BoardCall) -> bool {
    matches!(call, BoardCall::Enrol { .. } | BoardCall::Remove { .. })
}

/// Keeps the rows that count in order; of two with one address the second is set free.
fn keep(rows: &mut [LentRow]) {
    let count = rows.len().min(30);
    let board = &mut rows[..count];
    board.sort_by_key(|row| (row.used == 0, row.address));
    for at in 1..count {
        if board[at - 1].address == board[at].address {
            board[at].used = 0;
        }
    }
    board.sort_by_key(|row| row.used == 0);
}

/// Every pattern of bytes is a row: the library answers of it what the independent reading answers
/// of what it says. Enrolling and removing move rows; any other call changes the bytes of one row at
/// most, a refusal those of none, and a faulty reply only the row's fault.
#[test]
fn every_pattern_is_a_row() {
    let mut random = Random::new(SEED, 0);
    for _ in 0..20_000 {
        let count = random.below(34);
        let mut rows: Vec<LentRow> = (0..count).map(|_| any_row(&mut random)).collect();
        if !random.one_in(4) {
            keep(&mut rows);
        }
        let mut says: Vec<Row> = rows.iter().map(|row| Library.says(row)).collect();
        for _ in 0..10 {
            let before = rows.clone();
            let call = generate::board_call(&mut random, &says);
            let answer = call_both(&call, &mut rows, &mut says);
            let said: Vec<Row> = rows.iter().map(|row| Library.says(row)).collect();
            assert_eq!(said, says, "{call:?}");
            let places = 0..rows.len();
            let changed: Vec<usize> = places.filter(|&n| rows[n] != before[n]).collect();
            match (answer, changed.as_slice()) {
                (_, []) | (Ok(()), [0..=29]) => {}
                (Ok(()), changed) if moves(&call) && changed.iter().all(|&n| n < 30) => {}
                (Err(fault), &[n @ 0..=29])
                    if fault.number() <= 9 || fault == Fault::OutsideProfile =>
                {
                    let heard = LentRow {
                        fault: fault.number(),
                        place: fault.place(),
                        faulty: before[n].faulty.saturating_add(1),
                        heard: rows[n].heard,
                        ..before[n]
                    };
                    assert_eq!(rows[n], heard, "{call:?}");
                }
                _ => panic!("{call:?} changed the rows {changed:?}"),
            }
        }
    }
}
