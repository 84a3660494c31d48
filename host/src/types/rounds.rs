//! A whole round of replies, as request 05 of document 02 has it.

use super::Entry;
use std::fmt;

/// Most replies of a round.
pub const MOST_REPLIES: usize = 30;

/// A reply of a round, not yet checked.
#[repr(C)]
#[derive(Clone, Copy, Default, PartialEq, Eq)]
pub struct Polled {
    pub minute: u32,
    /// Bits of the reply.
    pub count: u32,
    /// How many of the bytes are lent.
    pub bytes: u32,
    pub address: u16,
    pub settings: u8,
    /// Not read.
    pub unused: u8,
    pub reply: [u8; 8],
}

impl Polled {
    /// What a save of this reply is asked to put down. More bytes than there are have no form by
    /// any count, as nine have none.
    pub fn entry(&self) -> Entry<'_> {
        const NO_FORM: &[u8] = &[0; 9];
        let lent = self.reply.get(..self.bytes as usize);
        Entry {
            settings: self.settings,
            minute: self.minute,
            address: self.address,
            count: self.count as usize,
            reply: lent.unwrap_or(NO_FORM),
        }
    }
}

impl fmt::Debug for Polled {
    fn fmt(&self, f: &mut fmt::Formatter) -> fmt::Result {
        let (bytes, reply) = (self.bytes, &self.reply);
        write!(f, "{:?} ({bytes} bytes of {reply:02x?})", self.entry())
    }
}

/// A round: its replies from the front.
#[repr(C)]
#[derive(Clone, Copy, Default, PartialEq, Eq)]
pub struct Round {
    pub replies: [Polled; MOST_REPLIES],
    /// How many replies it has; above 30 it is refused.
    pub count: usize,
}

impl Round {
    /// The replies that there are; all thirty if the count is above that.
    pub fn replies(&self) -> &[Polled] {
        &self.replies[..self.count.min(MOST_REPLIES)]
    }
}

impl fmt::Debug for Round {
    fn fmt(&self, f: &mut fmt::Formatter) -> fmt::Result {
        write!(f, "{} replies ", self.count)?;
        f.debug_list().entries(self.replies()).finish()
    }
}

/// What a round answers: the replies closed, the stores made, and the number that stopped it or 0.
#[derive(Clone, Copy, Debug, Default, PartialEq, Eq)]
pub struct Rounded {
    pub closed: usize,
    pub stores: usize,
    pub number: u8,
}
