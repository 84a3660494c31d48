//! Inputs for the comparisons: good, damaged and hostile.

mod areas;
mod boards;
mod drawings;
mod items;
mod joins;
mod lines;
mod pollings;
mod replies;
mod rounds;
mod sheets;
mod summaries;
mod way;

pub use areas::{fitters_plan, site};
pub use boards::{board_call, rows, BoardCall};
pub use drawings::{drawing, from_sample, good_drawing, DrawingCase};
pub use items::{framed, item, item_asked, mend, record, AskedCase};
pub use joins::{joinable, shares};
pub use lines::{bad_times, batches, drawn, pulse_times, samples, so_far, Drawn, Saying};
pub use pollings::{
    bad_pace, enrolled, few_samples, noise, pace, polling, quick_pace, sensed, Sensed,
};
pub use replies::{damage, damaged_reply, good_reply, reading, reply_of, with_parity, ReplyCase};
pub use rounds::{polled, round, round_of};
pub use sheets::{
    allowance, hostile_sheet, hostile_slot, month, record_bytes, save_case, SaveCase,
};
pub use summaries::{handed_in, pair_save, pairs, summarised_sheet, summary};
pub use way::{reply_times, sayable, sent, Came, Sent};

use crate::random::Random;
use crate::types::LARGEST_ADDRESS;

/// An address on the line, the ends more often than chance would have them.
pub fn address(random: &mut Random) -> u16 {
    match random.below(16) {
        0 => 0,
        1 => LARGEST_ADDRESS,
        _ => random.below(usize::from(LARGEST_ADDRESS) + 1) as u16,
    }
}

/// An address that is refused.
pub fn refused_address(random: &mut Random) -> u16 {
    match random.below(4) {
        0 => LARGEST_ADDRESS + 1,
        1 => u16::MAX,
        _ => LARGEST_ADDRESS + 1 + random.below(usize::from(u16::MAX - LARGEST_ADDRESS)) as u16,
    }
}

/// A settings byte that is refused.
pub fn refused_settings(random: &mut Random) -> u8 {
    16 + random.below(240) as u8
}

/// A count of bits that has no good form, or a huge one.
pub fn wild_count(random: &mut Random) -> usize {
    match random.below(4) {
        0 => 65 + random.below(64),
        1 => usize::MAX - random.below(16),
        2 => 256 + random.below(64), // a count that one byte would take for 0 to 63
        _ => random.next() as usize,
    }
}

/// A minute, now and then the largest.
pub fn minute(random: &mut Random) -> u32 {
    match random.below(8) {
        0 => u32::MAX,
        1 => random.below(1_000) as u32,
        _ => random.next() as u32,
    }
}
