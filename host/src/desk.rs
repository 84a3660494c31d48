//! The day on a board of three rows that `examples/desk.c` prints, held to what each call must
//! answer and to what must stand in the rows at its end.

use crate::calls::Core;
use crate::reading::IndependentReading;
use crate::types::{Answer, Fault, Last, Reading, Row, Standing, Temperature, COPPER, MARK_6500};

/// A board, and whether its calls answer as they must.
struct Desk<'a, C: Core> {
    core: &'a C,
    rows: Vec<C::Row>,
}

impl<C: Core> Desk<'_, C> {
    fn enrol(&mut self, settings: u8, address: u16, answer: Answer<()>) {
        self.enrol_with(settings, address, 0, answer);
    }

    fn enrol_with(&mut self, settings: u8, address: u16, gauge: u8, answer: Answer<()>) {
        let answered = self.core.enrol(&mut self.rows, settings, address, gauge);
        assert_eq!(answered, answer, "enrol {address}");
    }

    /// Transmitter 20 answers level 100 with this temperature.
    fn hear_warm(&mut self, minute: u32, tenths: i16, answer: Answer<()>, row: Standing) {
        let reading = Reading {
            level: 100,
            temperature: Temperature::Degrees(tenths),
            alarm1: false,
            alarm0: false,
        };
        let mut out = [0; 7];
        assert_eq!(self.core.write_reply(1, 20, &reading, &mut out), Ok(7));
        self.hear((20, minute), (56, &out), answer, row);
    }

    fn ask(&self, raise: u8, reset: u8, answer: Answer<[u8; 2]>) {
        let mut out = [0; 2];
        let answered = self
            .core
            .poll_row(&self.rows, 20, raise, reset, &mut out)
            .map(|()| out);
        assert_eq!(answered, answer, "poll {raise} {reset}");
    }

    fn remove(&mut self, address: u16, answer: Answer<()>) {
        let answered = self.core.remove(&mut self.rows, address);
        assert_eq!(answered, answer, "remove {address}");
    }

    fn look(&self, address: u16, answer: Answer<Standing>) {
        let answered = self.core.look_up(&self.rows, address);
        assert_eq!(answered, answer, "look {address}");
    }

    /// A reply is heard, and its row is looked at.
    fn hear(
        &mut self,
        asked: (u16, u32),
        reply: (usize, &[u8]),
        answer: Answer<()>,
        row: Standing,
    ) {
        let ((address, minute), (count, bytes)) = (asked, reply);
        let answered = self
            .core
            .hear(&mut self.rows, minute, address, count, bytes);
        assert_eq!(answered, answer, "hear {address} at minute {minute}");
        self.look(address, Ok(row));
    }
}

/// A row as a look tells it.
fn standing(settings: u8, last: Option<Last>, fault: u8) -> Standing {
    Standing {
        settings,
        last,
        fault,
        place: 0,
        faulty: 0,
        heard: last.map(|last| last.minute),
        gauge: 0,
    }
}

/// The same after so many faulty replies since the last good one, the latest at this minute.
fn bad(standing: Standing, faulty: u16, minute: u32) -> Standing {
    Standing {
        faulty,
        heard: Some(minute),
        ..standing
    }
}

fn last(level: u16, temperature: Temperature, alarms: [bool; 2], minute: u32) -> Option<Last> {
    let [alarm1, alarm0] = alarms;
    let reading = Reading {
        level,
        temperature,
        alarm1,
        alarm0,
    };
    Some(Last { reading, minute })
}

const NO_ALARM: [bool; 2] = [false; 2];

/// The board is filled: three transmitters, and what else is refused.
fn morning<C: Core>(desk: &mut Desk<C>) {
    desk.look(7, Err(Fault::Unknown));
    desk.enrol(1, 7, Ok(()));
    desk.look(7, Ok(standing(1, None, 0)));
    desk.enrol(1, 7, Err(Fault::Twice));
    desk.enrol(16, 12, Err(Fault::Settings));
    desk.enrol(2, 1_000, Err(Fault::AskedAddress));
    desk.enrol(2, 12, Ok(()));
    desk.enrol(9, 999, Ok(()));
    desk.enrol(0, 8, Err(Fault::NoRow));
}

/// Transmitter 7 answers, is garbled, and answers again: a fault leaves the reading and its
/// minute, a reply out of form leaves the fault too.
fn noon<C: Core>(desk: &mut Desk<C>) {
    const GOOD: &[u8] = b"\x80\x0e\x50\x00\x00";
    let kept = last(3_000, Temperature::Absent, NO_ALARM, 600);
    desk.hear((7, 600), (40, GOOD), Ok(()), standing(1, kept, 0));
    let faulty: [(usize, &[u8], Fault); 5] = [
        (40, b"\x80\x0e\x50\x00\x01", Fault::Parity),
        (0, b"", Fault::Silent),
        (39, GOOD, Fault::Length),
        (40, b"\x00\x0e\x50\x00\x01", Fault::Start),
        (40, b"\x80\x25\x00\x00\x03", Fault::Address),
    ];
    for (nth, (count, bytes, fault)) in (1..).zip(faulty) {
        let minute = 600 + u32::from(nth);
        let row = bad(standing(1, kept, fault.number()), nth, minute);
        desk.hear((7, minute), (count, bytes), Err(fault), row);
    }
    let as_before = bad(standing(1, kept, Fault::Address.number()), 5, 605);
    let long = (40, &b"\x80\x0e\x50\x00\x00\x00"[..]);
    desk.hear((7, 606), long, Err(Fault::Form), as_before);
    let next = last(2_999, Temperature::Degrees(-123), [true, false], 607);
    let warm = (56, &b"\x80\x0e\x70\x00\x05\x62\x47"[..]);
    desk.hear((7, 607), warm, Ok(()), standing(1, next, 0));
}

/// The others answer; one is removed, and its row is taken by another.
fn evening<C: Core>(desk: &mut Desk<C>) {
    let full = last(19_999, Temperature::Absent, [false, true], 700);
    let reply = (40, &b"\x80\x25\x00\x00\x03"[..]);
    desk.hear((12, 700), reply, Ok(()), standing(2, full, 0));
    let odd = last(3_000, Temperature::Absent, NO_ALARM, 701);
    let reply = (40, &b"\x93\x32\x50\x00\x00"[..]);
    desk.hear((999, 701), reply, Ok(()), standing(9, odd, 0));
    let core = desk.core;
    let stranger = core.hear(&mut desk.rows, 702, 8, 40, b"\x80\x10\x50\x00\x01");
    assert_eq!(stranger, Err(Fault::Unknown));
    desk.look(8, Err(Fault::Unknown));
    desk.remove(12, Ok(()));
    desk.remove(12, Err(Fault::Unknown));
    desk.look(12, Err(Fault::Unknown));
    desk.enrol(0, 8, Ok(()));
    desk.remove(999, Ok(()));
}

/// A copper bulb reports nonsense; then a 6500 takes its place and is moved.
fn night<C: Core>(desk: &mut Desk<C>) {
    desk.enrol_with(5, 20, COPPER, Err(Fault::ProfileOf1800));
    desk.enrol_with(1, 20, COPPER, Ok(()));
    let copper = |last, fault| Standing {
        gauge: COPPER,
        ..standing(1, last, fault)
    };
    let kept = last(100, Temperature::Degrees(4_000), NO_ALARM, 800);
    desk.hear_warm(800, 4_000, Ok(()), copper(kept, 0));
    let outside = bad(copper(kept, 26), 1, 801);
    desk.hear_warm(801, 4_001, Err(Fault::OutsideProfile), outside);
    desk.ask(0, 0, Ok([0x80, 0x20]));
    desk.ask(1, 0, Err(Fault::RaiseOrReset));
    desk.remove(20, Ok(()));
    desk.enrol_with(1, 20, MARK_6500, Ok(()));
    let warm = last(100, Temperature::Degrees(4_001), NO_ALARM, 802);
    let servo = Standing {
        gauge: MARK_6500,
        ..standing(1, warm, 0)
    };
    desk.hear_warm(802, 4_001, Ok(()), servo);
    desk.ask(1, 0, Ok([0xA0, 0x20]));
    desk.ask(0, 1, Ok([0x90, 0x20]));
    desk.ask(1, 1, Err(Fault::RaiseOrReset));
    desk.remove(20, Ok(()));
}

/// The host exchanges two rows, and every call refuses them; exchanged back, all is as it was.
fn dawn<C: Core>(desk: &mut Desk<C>) {
    desk.rows.swap(0, 1);
    desk.look(7, Err(Fault::Order));
    desk.enrol(1, 9, Err(Fault::Order));
    desk.rows.swap(0, 1);
    desk.look(8, Ok(standing(0, None, 0)));
}

/// The whole day, on any core.
pub fn day(core: &impl Core) {
    let rows = vec![core.row(&Row::default()); 3];
    let mut desk = Desk { core, rows };
    morning(&mut desk);
    noon(&mut desk);
    evening(&mut desk);
    night(&mut desk);
    dawn(&mut desk);
    let rows: Vec<Row> = desk.rows.iter().map(|row| core.says(row)).collect();
    let first = Row {
        in_use: true,
        address: 7,
        settings: 1,
        last: last(2_999, Temperature::Degrees(-123), [true, false], 607),
        heard: 607,
        ..Row::default()
    };
    let second = Row {
        in_use: true,
        address: 8,
        ..Row::default()
    };
    assert_eq!(rows, [first, second, Row::default()]);
}

#[test]
fn by_the_independent_reading() {
    day(&IndependentReading);
}
