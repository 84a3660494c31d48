//! Replies, good and damaged.

use super::{address, refused_address, refused_settings, wild_count};
use crate::random::Random;
use crate::reading::frame::write_reply;
use crate::types::{Reading, Temperature, LARGEST_LEVEL, ODD_PARITY};
use std::fmt;

/// Bytes that a reply case may hold, more than any good reply has.
const ROOM: usize = 12;

/// One question to a reader of replies.
#[derive(Clone, Copy, PartialEq, Eq)]
pub struct ReplyCase {
    pub settings: u8,
    pub address: u16,
    /// Bits told.
    pub count: usize,
    bytes: [u8; ROOM],
    length: usize,
}

impl ReplyCase {
    /// The bytes lent.
    #[inline]
    pub fn reply(&self) -> &[u8] {
        &self.bytes[..self.length]
    }

    /// A case with these bytes; what has no room is left out.
    pub fn new(settings: u8, address: u16, count: usize, reply: &[u8]) -> ReplyCase {
        let length = reply.len().min(ROOM);
        let mut bytes = [0; ROOM];
        bytes[..length].copy_from_slice(&reply[..length]);
        ReplyCase {
            settings,
            address,
            count,
            bytes,
            length,
        }
    }

    /// Turns bit `n` of the line over; bit 1 is the highest of the first byte.
    #[inline]
    fn flip(&mut self, n: usize) {
        if let Some(byte) = self.bytes.get_mut((n - 1) / 8) {
            *byte ^= 0x80 >> ((n - 1) % 8);
        }
    }

    /// Sets the bits `first` to `last` of the line to the lowest bits of a word.
    fn set(&mut self, first: usize, last: usize, word: u64) {
        for n in first..=last {
            let byte = self.bytes[(n - 1) / 8 % ROOM];
            let is = byte >> (7 - (n - 1) % 8) & 1;
            let wanted = (word >> (last - n)) as u8 & 1;
            if is != wanted {
                self.flip(n);
            }
        }
    }

    /// Mends the parity, so that a damage is found by what it broke.
    fn mend(&mut self) {
        let length = self.length;
        with_parity(self.settings, &mut self.bytes[..length]);
    }
}

impl fmt::Debug for ReplyCase {
    fn fmt(&self, f: &mut fmt::Formatter) -> fmt::Result {
        let (settings, address, count) = (self.settings, self.address, self.count);
        let reply = self.reply();
        write!(
            f,
            "settings {settings}, address {address}, {count} bits, {reply:02x?}"
        )
    }
}

/// Sets or clears the last bit of a reply so that its parity is as the settings say.
#[inline]
pub fn with_parity(settings: u8, reply: &mut [u8]) {
    let ones: u32 = reply.iter().map(|byte| byte.count_ones()).sum();
    let wrong = (ones & 1 == 1) != (settings & ODD_PARITY != 0);
    if let Some(last) = reply.last_mut() {
        *last ^= u8::from(wrong);
    }
}

/// A reading to be written: any level, mostly within the mode, any temperature.
pub fn reading(random: &mut Random, settings: u8) -> Reading {
    let largest = usize::from(LARGEST_LEVEL[usize::from(settings & 3)]);
    let level = match random.below(16) {
        0 => random.next() as u16,
        1 => (largest + 1 - random.below(3)) as u16,
        _ => random.below(largest + 1) as u16,
    };
    let temperature = match random.below(16) {
        0..=5 => Temperature::Absent,
        6 => Temperature::Above,
        7 => Temperature::Below,
        8 => Temperature::Degrees(random.next() as i16),
        9..=11 => Temperature::Degrees(random.below(4_003) as i16 - 2_001),
        _ => Temperature::Degrees(random.below(15_999) as i16 - 7_999),
    };
    Reading {
        level,
        temperature,
        alarm1: random.coin(),
        alarm0: random.coin(),
    }
}

/// A reply as a transmitter of these settings and this address would send it.
pub fn good_reply(random: &mut Random, settings: u8, address: u16) -> ReplyCase {
    let reading = reading(random, settings);
    reply_of(settings, address, &reading)
}

/// The reply that says this.
pub fn reply_of(settings: u8, address: u16, reading: &Reading) -> ReplyCase {
    let mut bytes = [0; 7];
    let length = write_reply(settings, address, reading, &mut bytes).unwrap_or(0);
    ReplyCase::new(settings, address, 8 * length, &bytes[..length])
}

/// A reply of any settings, good or damaged in one of many ways.
pub fn damaged_reply(random: &mut Random) -> ReplyCase {
    let settings = random.below(16) as u8;
    let address = address(random);
    let mut case = good_reply(random, settings, address);
    damage(random, &mut case);
    case
}

/// Damages a reply in one of many ways, or leaves it as it is.
pub fn damage(random: &mut Random, case: &mut ReplyCase) {
    let bits = 8 * case.length;
    match random.below(20) {
        // as it was sent
        0..=2 => {}
        // one bit, or several; two leave the parity good
        3 => case.flip(1 + random.below(bits)),
        4 => {
            for _ in 0..2 + random.below(4) {
                case.flip(1 + random.below(bits));
            }
        }
        // one bit, with the parity mended
        5 => {
            case.flip(1 + random.below(bits));
            case.mend();
        }
        // a bit of the level, or any level code
        6 => {
            case.flip(16 + random.below(22));
            case.mend();
        }
        7 => {
            case.set(16, 37, random.next());
            case.mend();
        }
        // a level of digits that are all in a chart of four bits, which reaches the range's end
        8 => {
            let digits = random.next() & 0x3_7777;
            case.settings |= 3;
            case.set(16, 33, digits);
            case.set(34, 37, 0);
            case.mend();
        }
        // any temperature
        9 if case.length == 7 => {
            case.set(40, 55, random.next());
            case.mend();
        }
        // unused bits, which are not read
        9 | 10 => {
            case.set(2, 3, random.next());
            case.mend();
        }
        // another count with the same bytes, or no reply at all
        11 => case.count = random.below(72),
        12 if random.coin() => case.count = wild_count(random),
        12 => {
            case.count = 0;
            case.length = 0;
        }
        // a byte more or fewer
        13 => case.length = (case.length + random.below(3) + ROOM - 1) % ROOM,
        // an odd count with the right bytes, pad bits good or not
        14 => {
            case.count = random.below(65);
            case.length = case.count.div_ceil(8);
            random.fill(&mut case.bytes);
            if !random.one_in(4) && case.count % 8 != 0 {
                case.bytes[case.length - 1] &= !(0xFF >> (case.count % 8));
            }
        }
        // any bytes under a good count
        15 => {
            let length = case.length;
            random.fill(&mut case.bytes[..length]);
        }
        // polled at another address, or at none
        16 => case.address = address(random),
        17 => case.address = refused_address(random),
        // read under other settings
        18 => {
            case.settings = if random.one_in(4) {
                refused_settings(random)
            } else {
                random.below(16) as u8
            };
            if random.coin() {
                case.mend();
            }
        }
        // anything at all
        _ => {
            case.count = random.below(100);
            case.length = random.below(ROOM + 1);
            random.fill(&mut case.bytes);
        }
    }
}

#[cfg(test)]
mod tests {
    use super::*;
    use crate::reading::frame::read_reply;
    use crate::types::Fault;

    /// The generator is worth nothing if some outcome is never seen.
    #[test]
    fn every_outcome_is_reached() {
        let mut random = Random::new(crate::random::SEED, 0);
        let mut faults = [0u32; 20];
        let mut temperatures = [0u32; 4];
        for _ in 0..200_000 {
            let case = damaged_reply(&mut random);
            match read_reply(case.settings, case.address, case.count, case.reply()) {
                Err(fault) => faults[usize::from(fault.number())] += 1,
                Ok(reading) => {
                    faults[0] += 1;
                    temperatures[match reading.temperature {
                        Temperature::Degrees(_) => 0,
                        Temperature::Above => 1,
                        Temperature::Below => 2,
                        Temperature::Absent => 3,
                    }] += 1;
                }
            }
        }
        let expected = [1, 2, 3, 4, 5, 6, 7, 8, 9, 10, 11, Fault::Form.number()];
        for fault in expected {
            assert!(
                faults[usize::from(fault)] > 200,
                "fault {fault}: {faults:?}"
            );
        }
        assert!(faults[0] > 50_000, "{faults:?}");
        assert!(
            temperatures.iter().all(|&times| times > 1_000),
            "{temperatures:?}"
        );
    }
}
