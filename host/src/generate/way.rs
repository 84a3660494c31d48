//! Replies on their way from the transmitters to the card: what each says, what becomes of it on
//! the lines, and where its save is cut.

use super::{address, allowance, minute, pulse_times};
use crate::random::Random;
use crate::types::lines::PulseTimes;
use crate::types::{Reading, Temperature, LARGEST_LEVEL, LARGEST_SETTINGS, TYPE_1800};

/// What comes of a reply on the lines.
#[derive(Clone, Debug, PartialEq, Eq)]
pub enum Came {
    /// The bits that were sent.
    Whole,
    /// The same with this one turned over; bit 1 is the first.
    OneBit(usize),
    /// Other bits, as many as these bytes have.
    Bits(Vec<u8>),
    /// So many of its bits, and then damage that spoils the message.
    Spoiled(usize),
}

/// A reply: of which transmitter and when, what it says, and the stores that its save may make.
#[derive(Clone, Debug, PartialEq, Eq)]
pub struct Sent {
    pub settings: u8,
    pub minute: u32,
    pub address: u16,
    pub reading: Reading,
    pub came: Came,
    pub allowance: usize,
}

/// A reading that a reply of these settings can say, the ends more often than chance would have
/// them.
pub fn sayable(random: &mut Random, settings: u8) -> Reading {
    let largest = LARGEST_LEVEL[usize::from(settings & 3)];
    let level = match random.below(8) {
        0 => 0,
        1 => largest,
        _ => random.below(usize::from(largest) + 1) as u16,
    };
    let is_1800 = settings & TYPE_1800 != 0;
    let limit: i16 = if is_1800 { 1_999 } else { 7_999 };
    let temperature = match random.below(8) {
        0 | 1 => Temperature::Absent,
        2 if is_1800 => Temperature::Above,
        3 if is_1800 => Temperature::Below,
        2 => Temperature::Degrees(limit),
        3 => Temperature::Degrees(-limit),
        4 => Temperature::Degrees(0),
        _ => Temperature::Degrees(random.below(2 * limit as usize + 1) as i16 - limit),
    };
    Reading {
        level,
        temperature,
        alarm1: random.coin(),
        alarm0: random.coin(),
    }
}

/// A reply, mostly whole, its save mostly uncut.
pub fn sent(random: &mut Random) -> Sent {
    let settings = random.below(usize::from(LARGEST_SETTINGS) + 1) as u8;
    let reading = sayable(random, settings);
    let bits = match reading.temperature {
        Temperature::Absent => 40,
        _ => 56,
    };
    let came = match random.below(16) {
        0 | 1 => Came::OneBit(1 + random.below(bits)),
        2 => {
            let mut bytes = vec![0; [5, 7, 1 + random.below(8)][random.below(3)]];
            random.fill(&mut bytes);
            Came::Bits(bytes)
        }
        3 | 4 => Came::Spoiled(random.below(bits)),
        _ => Came::Whole,
    };
    Sent {
        settings,
        minute: minute(random),
        address: address(random),
        reading,
        came,
        allowance: match random.one_in(3) {
            true => allowance(random),
            false => usize::MAX,
        },
    }
}

/// Timing numbers by which a message can have more than one bit.
pub fn reply_times(random: &mut Random) -> PulseTimes {
    let times = pulse_times(random);
    PulseTimes {
        gap: times.gap.max(2),
        ..times
    }
}

#[cfg(test)]
mod tests {
    use super::*;
    use crate::random::SEED;
    use crate::reading::frame::{read_reply, write_reply};

    #[test]
    fn what_is_sayable_is_read_as_it_was_written() {
        let mut random = Random::new(SEED, 0);
        for _ in 0..20_000 {
            let sent = sent(&mut random);
            let mut bytes = [0; 7];
            let size = write_reply(sent.settings, sent.address, &sent.reading, &mut bytes);
            let size = size.unwrap_or(0);
            let read = read_reply(sent.settings, sent.address, 8 * size, &bytes[..size]);
            assert_eq!(read, Ok(sent.reading));
        }
    }
}
