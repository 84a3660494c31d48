//! A round that the recorder runs itself, as our request 16 has it.

use super::lines::{PulseTimes, SoFar};
use super::rounds::Round;
use std::ops::Deref;

/// The timing numbers of a round. All but `tries` are in samples.
#[repr(C)]
#[derive(Clone, Copy, Debug, Default, PartialEq, Eq)]
pub struct Pace {
    /// A poll's pulses, and the idle after each.
    pub low: u32,
    pub still: u32,
    /// Idle before each poll.
    pub delay: u32,
    /// Pulses of an answer at the least and at the most, and the idle run that closes it.
    pub least: u32,
    pub most: u32,
    pub gap: u32,
    /// Within so many after the poll the first low sample of an answer comes,
    pub wait: u32,
    /// and within so many it is closed.
    pub longest: u32,
    /// Polls of one transmitter at most.
    pub tries: u32,
}

impl Pace {
    /// What of it hearing asks for.
    pub fn times(&self) -> PulseTimes {
        PulseTimes {
            least: self.least as usize,
            most: self.most as usize,
            gap: self.gap as usize,
        }
    }

    /// The samples of a poll.
    pub fn poll(&self) -> usize {
        16 * (self.low as usize + self.still as usize)
    }

    /// Samples after which a round of so many transmitters is over, whatever the lines do.
    pub fn bound(&self, transmitters: usize) -> usize {
        let each = self.delay as usize + self.poll() + self.longest as usize;
        transmitters * self.tries as usize * each
    }
}

/// A round under way: the transmitter whose turn it is, and how far it is polled or listened to.
#[repr(C)]
#[derive(Clone, Copy, Debug, Default, PartialEq, Eq)]
pub struct Polling {
    pub round: Round,
    /// What is heard of the answer.
    pub lines: SoFar,
    /// Samples drawn of delay and poll, or heard since the poll.
    pub passed: u32,
    /// The reply whose turn it is; the round is over where there is none.
    pub at: u16,
    /// Polls of this transmitter before this one, none of which was answered by a message.
    pub tried: u8,
    /// 0 while it draws.
    pub listening: u8,
}

/// A round begun from a board; all zeros beside a refusal.
#[repr(C)]
#[derive(Clone, Copy, Debug, Default, PartialEq, Eq)]
pub struct Begun {
    pub polling: Polling,
    pub number: u8,
}

/// What drawing tells: how many samples were drawn.
#[repr(C)]
#[derive(Clone, Copy, Debug, Default, PartialEq, Eq)]
pub struct Drew {
    pub count: usize,
    pub over: u8,
    pub number: u8,
}

/// What hearing tells: how many samples were taken, and of the try that this call settled which
/// reply it was for, whether the reply stands now, and by what number.
#[repr(C)]
#[derive(Clone, Copy, Debug, Default, PartialEq, Eq)]
pub struct Settled {
    pub taken: usize,
    pub reply: u16,
    pub answered: u8,
    pub over: u8,
    pub number: u8,
}

/// What a call leaves and tells: the lent state after it, and its answer.
#[derive(Clone, Copy, Debug, Default, PartialEq, Eq)]
pub struct Left<T> {
    pub polling: Polling,
    pub told: T,
}

impl<T> Deref for Left<T> {
    type Target = T;

    fn deref(&self) -> &T {
        &self.told
    }
}
