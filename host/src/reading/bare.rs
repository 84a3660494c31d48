//! The answers as the reading gives them, which are this package's own types.

use super::IndependentReading;
use crate::calls::{Bare, Core};
use crate::types::{Answer, Poll, Reading, Row, Slot, Standing};

impl Bare for IndependentReading {
    type Poll = Answer<Poll>;
    type Reply = Answer<Reading>;
    type Slot = Answer<Slot>;
    type Standing = Answer<Standing>;

    #[inline]
    fn bare_read_poll(&self, poll: &[u8]) -> Answer<Poll> {
        self.read_poll(poll)
    }

    #[inline]
    fn bare_read_reply(
        &self,
        settings: u8,
        address: u16,
        count: usize,
        reply: &[u8],
    ) -> Answer<Reading> {
        self.read_reply(settings, address, count, reply)
    }

    #[inline]
    fn bare_read_reply_by_pairs(
        &self,
        settings: u8,
        address: u16,
        count: usize,
        reply: &[u8],
    ) -> Answer<Reading> {
        self.read_reply(settings, address, count, reply)
    }

    #[inline]
    fn bare_look(&self, sheet: &[u8], slot: usize) -> Answer<Slot> {
        self.look(sheet, slot)
    }

    #[inline]
    fn bare_look_up(&self, rows: &[Row], address: u16) -> Answer<Standing> {
        self.look_up(rows, address)
    }
}
