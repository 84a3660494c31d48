//! An independent reading of documents 01 and 02, written from the papers alone.
//!
//! It shares nothing with the proved sources but the paper. It is meant to be both plain and
//! fast: replies and slots are packed into words, the charts are tables of whole digit pairs, and
//! the sheet is searched from its end by words. No call panics, whatever it is lent.

#![forbid(unsafe_code)]

pub mod areas;
mod bare;
#[cfg(test)]
mod bench_checks;
pub mod board;
mod charts;
pub mod drawings;
pub mod frame;
pub mod items;
pub mod joins;
pub mod lines;
pub mod listing;
mod modes;
pub mod pollings;
pub mod rounds;
pub mod sheet;
pub mod stores;
pub mod summaries;
mod word;

use crate::calls::Core;
use crate::types::{Answer, Entry, Poll, Reading, Row, Slot, Standing};

/// The independent reading as a core.
///
/// Each of these is a call, and none is put in place where it is called: the proved library is
/// called across a boundary, and a benchmark of the two is to compare call with call.
#[derive(Clone, Copy, Debug, Default)]
pub struct IndependentReading;

impl Core for IndependentReading {
    type Row = Row;

    #[inline(never)]
    fn read_poll(&self, poll: &[u8]) -> Answer<Poll> {
        frame::read_poll(poll)
    }

    #[inline(never)]
    fn write_poll(&self, poll: &Poll, out: &mut [u8]) -> Answer<usize> {
        frame::write_poll(poll, out)
    }

    #[inline(never)]
    fn read_reply(
        &self,
        settings: u8,
        address: u16,
        count: usize,
        reply: &[u8],
    ) -> Answer<Reading> {
        frame::read_reply(settings, address, count, reply)
    }

    #[inline(never)]
    fn write_reply(
        &self,
        settings: u8,
        address: u16,
        reading: &Reading,
        out: &mut [u8],
    ) -> Answer<usize> {
        frame::write_reply(settings, address, reading, out)
    }

    #[inline(never)]
    fn save(&self, sheet: &mut [u8], entry: &Entry, allowance: usize) -> Answer<usize> {
        sheet::save(sheet, entry, allowance)
    }

    #[inline(never)]
    fn look(&self, sheet: &[u8], slot: usize) -> Answer<Slot> {
        sheet::look(sheet, slot)
    }

    #[inline(never)]
    fn head_line(&self, sheet: &[u8], line: &mut [u8]) -> Answer<usize> {
        listing::head_line(sheet, line)
    }

    #[inline(never)]
    fn slot_line(&self, sheet: &[u8], slot: usize, line: &mut [u8]) -> Answer<usize> {
        listing::slot_line(sheet, slot, line)
    }

    #[inline(never)]
    fn last_line(&self, sheet: &[u8], line: &mut [u8]) -> Answer<usize> {
        listing::last_line(sheet, line)
    }

    #[inline(never)]
    fn list(&self, sheet: &[u8], text: &mut Vec<u8>) {
        listing::list(sheet, text)
    }

    #[inline(never)]
    fn enrol(&self, rows: &mut [Row], settings: u8, address: u16, gauge: u8) -> Answer<()> {
        board::enrol(rows, settings, address, gauge)
    }

    #[inline(never)]
    fn hear(
        &self,
        rows: &mut [Row],
        minute: u32,
        address: u16,
        count: usize,
        reply: &[u8],
    ) -> Answer<()> {
        board::hear(rows, minute, address, count, reply)
    }

    #[inline(never)]
    fn remove(&self, rows: &mut [Row], address: u16) -> Answer<()> {
        board::remove(rows, address)
    }

    #[inline(never)]
    fn look_up(&self, rows: &[Row], address: u16) -> Answer<Standing> {
        board::look_up(rows, address)
    }

    #[inline(never)]
    fn poll_row(
        &self,
        rows: &[Row],
        address: u16,
        raise: u8,
        reset: u8,
        out: &mut [u8],
    ) -> Answer<()> {
        board::poll(rows, address, raise, reset, out)
    }

    #[inline]
    fn row(&self, says: &Row) -> Row {
        *says
    }

    #[inline]
    fn says(&self, row: &Row) -> Row {
        *row
    }
}
