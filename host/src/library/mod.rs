//! The proved library, with ordinary Rust types: link `libsisalcove.a` and call [`Library`].
//!
//! Every call of the archive takes every input, so there is nothing to test before a call; what
//! makes a call safe is that a Rust slice is never null and that what is lent for writing is lent
//! to nobody else.

#[cfg(test)]
#[macro_use]
mod layout;

mod areas;
mod bare;
mod drawings;
mod ffi;
mod items;
mod joins;
mod lines;
mod pollings;
mod rounds;
mod stores;
mod summaries;
#[cfg(test)]
mod tests;

pub use ffi::Row as LentRow;
pub use ffi::VERSION;

use crate::calls::{Bare, Core};
use crate::types::{
    Answer, Entry, Fault, Last, Poll, Reading, Record, Row, Slot, Standing, Temperature,
};

/// The proved library as a core.
#[derive(Clone, Copy, Debug, Default)]
pub struct Library;

/// The kinds of a temperature, in rows, answers and arguments alike.
const NONE: u8 = 0;
const DEGREES: u8 = 1;
const ABOVE: u8 = 2;
const BELOW: u8 = 3;
const ABSENT: u8 = 4;

/// The states of a slot.
const BLANK: u8 = 1;
const SPOILED: u8 = 2;
const RECORD: u8 = 3;

/// What a call's number says: nothing was refused, or the fault of that number.
#[inline]
fn refused(number: u8) -> Answer<()> {
    match number {
        0 => Ok(()),
        _ => Err(fault(number)),
    }
}

/// The same of a number that came with the place of an unreadable digit, 0 for none.
#[inline]
fn refused_at(number: u8, place: u8) -> Answer<()> {
    match (number, place) {
        (0, 0) => Ok(()),
        _ => Err(Fault::from_parts(number, place)
            .unwrap_or_else(|| unreachable!("the library refused by {number} at place {place}"))),
    }
}

/// The fault of a number that the library answered, which is always one of the paper's.
#[inline]
fn fault(number: u8) -> Fault {
    match Fault::from_number(number) {
        Some(fault) => fault,
        None => unreachable!("the library refused by number {number}"),
    }
}

#[inline]
fn done(done: ffi::Done) -> Answer<usize> {
    refused(done.number).map(|()| done.count)
}

/// A temperature as kind and tenths.
#[inline]
fn kind_and_tenths(temperature: Temperature) -> (u8, i16) {
    match temperature {
        Temperature::Degrees(tenths) => (DEGREES, tenths),
        Temperature::Above => (ABOVE, 0),
        Temperature::Below => (BELOW, 0),
        Temperature::Absent => (ABSENT, 0),
    }
}

/// The temperature that a kind and tenths stand for: any kind but these three is absent.
#[inline]
fn temperature(kind: u8, tenths: i16) -> Temperature {
    match kind {
        DEGREES => Temperature::Degrees(tenths),
        ABOVE => Temperature::Above,
        BELOW => Temperature::Below,
        _ => Temperature::Absent,
    }
}

/// The last good reading that a row, or an answer laid out like one, tells of.
#[inline]
fn last(kind: u8, tenths: i16, level: u16, alarms: [u8; 2], minute: u32) -> Option<Last> {
    let [alarm1, alarm0] = alarms;
    (kind != NONE).then(|| Last {
        reading: Reading {
            level,
            temperature: temperature(kind, tenths),
            alarm1: alarm1 != 0,
            alarm0: alarm0 != 0,
        },
        minute,
    })
}

/// The version of the archive that was linked, [`VERSION`] where it belongs to this wrapper.
pub fn version() -> u32 {
    // SAFETY: nothing is lent.
    unsafe { ffi::sisal_version() }
}

/// How many slots a sheet has. Refusal: 12.
pub fn slots(sheet: &[u8]) -> Answer<usize> {
    // SAFETY: the library reads the length of the slice alone.
    done(unsafe { ffi::sisal_slots(sheet.as_ptr(), sheet.len()) })
}

/// Bytes that are enough for the listing of a sheet: 40 for each line.
fn room(sheet: &[u8]) -> usize {
    40 * (slots(sheet).unwrap_or(0) + 2)
}

/// What a reply told in integers says.
#[inline]
fn reading(told: ffi::Reply) -> Answer<Reading> {
    refused_at(told.number, told.place).map(|()| Reading {
        level: told.level,
        temperature: temperature(told.kind, told.tenths),
        alarm1: told.alarm1 != 0,
        alarm0: told.alarm0 != 0,
    })
}

/// Reads a reply by the second reader, two digits at a time. Refusals: 10, 11, 14, then 1 to 9.
#[inline]
pub fn read_reply_by_pairs(
    settings: u8,
    address: u16,
    count: usize,
    reply: &[u8],
) -> Answer<Reading> {
    reading(Library.bare_read_reply_by_pairs(settings, address, count, reply))
}

/// Whether a reply of `count` bits is lent in the right form. Refusal: 14.
pub fn form(count: usize, reply: &[u8]) -> Answer<()> {
    // SAFETY: the library reads the bytes of the slice alone.
    refused(unsafe { ffi::sisal_form(count, reply.as_ptr(), reply.len()) })
}

impl Core for Library {
    type Row = LentRow;

    #[inline]
    fn read_poll(&self, poll: &[u8]) -> Answer<Poll> {
        let told = self.bare_read_poll(poll);
        refused(told.number).map(|()| Poll {
            address: told.address,
            raise: told.raise != 0,
            reset: told.reset != 0,
        })
    }

    #[inline]
    fn write_poll(&self, poll: &Poll, out: &mut [u8]) -> Answer<usize> {
        let (raise, reset) = (poll.raise.into(), poll.reset.into());
        // SAFETY: the library writes bytes of the slice alone, which is lent to nobody else.
        done(unsafe {
            ffi::sisal_write_poll(poll.address, raise, reset, out.as_mut_ptr(), out.len())
        })
    }

    #[inline]
    fn read_reply_by_pairs(
        &self,
        settings: u8,
        address: u16,
        count: usize,
        reply: &[u8],
    ) -> Answer<Reading> {
        read_reply_by_pairs(settings, address, count, reply)
    }

    #[inline]
    fn read_reply(
        &self,
        settings: u8,
        address: u16,
        count: usize,
        reply: &[u8],
    ) -> Answer<Reading> {
        reading(self.bare_read_reply(settings, address, count, reply))
    }

    #[inline]
    fn write_reply(
        &self,
        settings: u8,
        address: u16,
        reading: &Reading,
        out: &mut [u8],
    ) -> Answer<usize> {
        let (kind, tenths) = kind_and_tenths(reading.temperature);
        // SAFETY: the library writes bytes of the slice alone, which is lent to nobody else.
        done(unsafe {
            ffi::sisal_write_reply(
                settings,
                address,
                reading.level,
                kind,
                tenths,
                reading.alarm1.into(),
                reading.alarm0.into(),
                out.as_mut_ptr(),
                out.len(),
            )
        })
    }

    #[inline]
    fn save(&self, sheet: &mut [u8], entry: &Entry, allowance: usize) -> Answer<usize> {
        // SAFETY: the library reads the reply and writes bytes of the sheet alone, which is lent to
        // nobody else.
        done(unsafe {
            ffi::sisal_save(
                sheet.as_mut_ptr(),
                sheet.len(),
                entry.settings,
                entry.minute,
                entry.address,
                entry.count,
                entry.reply.as_ptr(),
                entry.reply.len(),
                allowance,
            )
        })
    }

    #[inline]
    fn look(&self, sheet: &[u8], slot: usize) -> Answer<Slot> {
        let told = self.bare_look(sheet, slot);
        refused(told.number).map(|()| match told.state {
            BLANK => Slot::Blank,
            SPOILED => Slot::Spoiled,
            RECORD => Slot::Record(Record {
                settings: told.settings,
                minute: told.minute,
                address: told.address,
                count: told.count,
                reply: told.reply,
            }),
            _ => Slot::Foreign,
        })
    }

    #[inline]
    fn head_line(&self, sheet: &[u8], line: &mut [u8]) -> Answer<usize> {
        // SAFETY: the library reads the sheet and writes bytes of the line alone, which is lent to
        // nobody else.
        done(unsafe {
            let (out, bytes) = (line.as_mut_ptr(), line.len());
            ffi::sisal_head_line(sheet.as_ptr(), sheet.len(), out, bytes)
        })
    }

    #[inline]
    fn slot_line(&self, sheet: &[u8], slot: usize, line: &mut [u8]) -> Answer<usize> {
        // SAFETY: as for the first line.
        done(unsafe {
            let (out, bytes) = (line.as_mut_ptr(), line.len());
            ffi::sisal_slot_line(sheet.as_ptr(), sheet.len(), slot, out, bytes)
        })
    }

    #[inline]
    fn last_line(&self, sheet: &[u8], line: &mut [u8]) -> Answer<usize> {
        // SAFETY: as for the first line.
        done(unsafe {
            let (out, bytes) = (line.as_mut_ptr(), line.len());
            ffi::sisal_last_line(sheet.as_ptr(), sheet.len(), out, bytes)
        })
    }

    /// The library writes a whole listing at once, into bytes that are enough for any sheet of the
    /// size, or for the one line of a bad size.
    #[inline]
    fn list(&self, sheet: &[u8], text: &mut Vec<u8>) {
        let start = text.len();
        text.resize(start + room(sheet), 0);
        let out = &mut text[start..];
        // SAFETY: the library reads the sheet and writes bytes of the text alone, which is lent to
        // nobody else.
        let written = done(unsafe {
            let (out, bytes) = (out.as_mut_ptr(), out.len());
            ffi::sisal_listing(sheet.as_ptr(), sheet.len(), out, bytes)
        });
        text.truncate(start + written.unwrap_or(0));
    }

    #[inline]
    fn enrol(&self, rows: &mut [LentRow], settings: u8, address: u16, gauge: u8) -> Answer<()> {
        // SAFETY: the library writes rows of the slice alone, which is lent to nobody else.
        refused(unsafe {
            ffi::sisal_board_enrol(rows.as_mut_ptr(), rows.len(), settings, address, gauge)
        })
    }

    #[inline]
    fn hear(
        &self,
        rows: &mut [LentRow],
        minute: u32,
        address: u16,
        count: usize,
        reply: &[u8],
    ) -> Answer<()> {
        // SAFETY: the library reads the reply and writes rows of the slice alone, which is lent to
        // nobody else.
        let told = unsafe {
            ffi::sisal_board_hear(
                rows.as_mut_ptr(),
                rows.len(),
                minute,
                address,
                count,
                reply.as_ptr(),
                reply.len(),
            )
        };
        refused_at(told.number, told.place)
    }

    #[inline]
    fn remove(&self, rows: &mut [LentRow], address: u16) -> Answer<()> {
        // SAFETY: the library writes rows of the slice alone, which is lent to nobody else.
        refused(unsafe { ffi::sisal_board_remove(rows.as_mut_ptr(), rows.len(), address) })
    }

    #[inline]
    fn look_up(&self, rows: &[LentRow], address: u16) -> Answer<Standing> {
        let told = self.bare_look_up(rows, address);
        let alarms = [told.alarm1, told.alarm0];
        refused(told.number).map(|()| Standing {
            settings: told.settings,
            last: last(told.kind, told.tenths, told.level, alarms, told.minute),
            fault: told.fault,
            place: told.place,
            faulty: told.faulty,
            heard: (told.kind != 0 || told.fault != 0).then_some(told.heard),
            gauge: told.gauge,
        })
    }

    #[inline]
    fn poll_row(
        &self,
        rows: &[LentRow],
        address: u16,
        raise: u8,
        reset: u8,
        out: &mut [u8],
    ) -> Answer<()> {
        // SAFETY: the library reads rows and writes bytes of the output alone, which is lent to
        // nobody else.
        refused(unsafe {
            let (lent, bytes) = (out.as_mut_ptr(), out.len());
            ffi::sisal_board_poll(
                rows.as_ptr(),
                rows.len(),
                address,
                raise,
                reset,
                lent,
                bytes,
            )
        })
    }

    fn row(&self, says: &Row) -> LentRow {
        let mut row = LentRow {
            address: says.address,
            settings: says.settings,
            fault: says.fault,
            place: says.place,
            faulty: says.faulty,
            heard: says.heard,
            gauge: says.gauge,
            used: says.in_use.into(),
            ..LentRow::default()
        };
        if let Some(last) = says.last {
            let reading = last.reading;
            (row.kind, row.tenths) = kind_and_tenths(reading.temperature);
            row.minute = last.minute;
            row.level = reading.level;
            row.alarm1 = reading.alarm1.into();
            row.alarm0 = reading.alarm0.into();
        }
        row
    }

    fn says(&self, row: &LentRow) -> Row {
        Row {
            in_use: row.used != 0,
            address: row.address,
            settings: row.settings,
            last: last(
                row.kind,
                row.tenths,
                row.level,
                [row.alarm1, row.alarm0],
                row.minute,
            ),
            fault: row.fault,
            place: row.place,
            faulty: row.faulty,
            heard: row.heard,
            gauge: row.gauge,
        }
    }
}
