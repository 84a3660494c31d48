//! Polls and replies compared.

use super::{in_parts, same, Difference, Hex, Verdict};
use crate::calls::Core;
use crate::generate::{self, with_parity};
use crate::random::Random;
use crate::types::{Fault, Poll, Reading, Temperature, LARGEST_LEVEL, ODD_PARITY, TYPE_1800};

/// What out-buffers hold before a write, so that a byte changed too many shows.
const BEFORE: u8 = 0xA5;

/// Reads one reply with both.
#[inline]
fn read<L: Core, R: Core>(
    left: &L,
    right: &R,
    settings: u8,
    address: u16,
    count: usize,
    reply: &[u8],
) -> Result<(), Difference> {
    let seen = left.read_reply(settings, address, count, reply);
    let other = right.read_reply(settings, address, count, reply);
    same(seen, other, || {
        format!("reading settings {settings}, address {address}, {count} bits, {reply:02x?}")
    })
}

/// Writes one reply with both into `room` bytes; answers what they wrote.
#[inline]
fn write<L: Core, R: Core>(
    left: &L,
    right: &R,
    settings: u8,
    address: u16,
    reading: &Reading,
    room: usize,
) -> Result<([u8; 9], usize), Difference> {
    let mut out = [BEFORE; 9];
    let mut other = [BEFORE; 9];
    let room = room.min(out.len());
    let wrote = left.write_reply(settings, address, reading, &mut out[..room]);
    let wrote_other = right.write_reply(settings, address, reading, &mut other[..room]);
    same((wrote, Hex(&out)), (wrote_other, Hex(&other)), || {
        format!("writing settings {settings}, address {address}, {reading:?}, into {room} bytes")
    })?;
    Ok((out, wrote.unwrap_or(0).min(out.len())))
}

/// Writes a reading with both, reads it back with both, and holds it to what the paper says must
/// come back.
fn there_and_back<L: Core, R: Core>(
    left: &L,
    right: &R,
    settings: u8,
    reading: &Reading,
) -> Result<(), Difference> {
    const ADDRESS: u16 = 508;
    let (out, bytes) = write(left, right, settings, ADDRESS, reading, 9)?;
    let reply = &out[..bytes];
    read(left, right, settings, ADDRESS, 8 * bytes, reply)?;
    let expected = if reading.level > LARGEST_LEVEL[usize::from(settings & 3)] {
        // Every digit bit is 1, and the second digit from the top has no such code.
        Err(Fault::Code1)
    } else {
        Ok(Reading {
            temperature: as_told(settings, reading.temperature),
            ..*reading
        })
    };
    let back = left.read_reply(settings, ADDRESS, 8 * bytes, reply);
    same(back, expected, || {
        format!("settings {settings}, {reading:?} written and read back, {reply:02x?}")
    })
}

/// The temperature that a reply can tell of one that is given to the writer.
fn as_told(settings: u8, given: Temperature) -> Temperature {
    use Temperature::{Above, Absent, Below, Degrees};
    if settings & TYPE_1800 != 0 {
        match given {
            Degrees(2_000..) => Above,
            Degrees(..=-2_000) => Below,
            other => other,
        }
    } else {
        match given {
            Degrees(tenths) => Degrees(tenths.clamp(-7_999, 7_999)),
            Above => Degrees(7_999),
            Below => Degrees(-7_999),
            Absent => Absent,
        }
    }
}

/// Every two bytes as a poll, other numbers of bytes, and every address, raise and reset written
/// into 0 to 3 bytes.
pub fn polls<L: Core, R: Core>(left: &L, right: &R) -> Verdict {
    let read = |poll: &[u8]| {
        same(left.read_poll(poll), right.read_poll(poll), || {
            format!("reading the poll {poll:02x?}")
        })
    };
    in_parts(256, |part| {
        let first = part as u8;
        let mut asked = 0;
        read(&[])?;
        read(&[first])?;
        for second in 0..=u8::MAX {
            read(&[first, second])?;
            read(&[first, second, 0])?;
            let number = u16::from_be_bytes([first, second]);
            for marks in 0..4 {
                let poll = Poll {
                    address: number,
                    raise: marks & 1 != 0,
                    reset: marks & 2 != 0,
                };
                for room in 0..=3 {
                    let mut out = [BEFORE; 3];
                    let mut other = [BEFORE; 3];
                    let wrote = left.write_poll(&poll, &mut out[..room]);
                    let wrote_other = right.write_poll(&poll, &mut other[..room]);
                    same((wrote, Hex(&out)), (wrote_other, Hex(&other)), || {
                        format!("writing {poll:?} into {room} bytes")
                    })?;
                }
            }
            asked += 18;
        }
        Ok(asked + 2)
    })
}

/// Every level of every settings byte, with and without a temperature, written and read back.
pub fn levels<L: Core, R: Core>(left: &L, right: &R) -> Verdict {
    in_parts(16 * 16, |part| {
        let settings = (part % 16) as u8;
        let chunk = (part / 16) as u16;
        for low in 0..0x1000 {
            let level = chunk << 12 | low;
            for temperature in [Temperature::Absent, Temperature::Degrees(-376)] {
                let reading = Reading {
                    level,
                    temperature,
                    alarm1: low & 1 != 0,
                    alarm0: low & 2 != 0,
                };
                there_and_back(left, right, settings, &reading)?;
            }
        }
        Ok(2 * 0x1000)
    })
}

/// Every pattern of bits 16 to 37 in every mode, the parity good.
pub fn level_codes<L: Core, R: Core>(left: &L, right: &R) -> Verdict {
    in_parts(4 * 64, |part| {
        let settings = (part % 4) as u8;
        let chunk = (part / 4) as u64;
        for low in 0..0x1_0000 {
            let code = chunk << 16 | low;
            // start, address 508, then bits 16 to 37
            let word: u64 = 1 << 39 | 0x508 << 25 | code << 3;
            let parity = u64::from(word.count_ones() & 1);
            let [_, _, _, reply @ ..] = (word | parity).to_be_bytes();
            read(left, right, settings, 508, 40, &reply)?;
        }
        Ok(0x1_0000)
    })
}

/// Every temperature that a writer can be given, under every settings byte.
pub fn temperatures<L: Core, R: Core>(left: &L, right: &R) -> Verdict {
    in_parts(16 * 16, |part| {
        let settings = (part % 16) as u8;
        let reading = |temperature| Reading {
            level: 1_234,
            temperature,
            alarm1: false,
            alarm0: true,
        };
        for low in 0..0x1000 {
            let tenths = ((part / 16) << 12 | low) as u16 as i16;
            let degrees = Temperature::Degrees(tenths);
            there_and_back(left, right, settings, &reading(degrees))?;
        }
        for other in [Temperature::Above, Temperature::Below, Temperature::Absent] {
            there_and_back(left, right, settings, &reading(other))?;
        }
        Ok(0x1000 + 3)
    })
}

/// Every pattern of bits 40 to 55 under every settings byte, the parity good.
pub fn temperature_codes<L: Core, R: Core>(left: &L, right: &R) -> Verdict {
    in_parts(16 * 16, |part| {
        let settings = (part % 16) as u8;
        for low in 0..0x1000 {
            let field = ((part / 16) << 12 | low) as u64;
            // start, address 508, level 0, then bits 40 to 55
            let word: u64 = 1 << 55 | 0x508 << 41 | field << 1;
            let [_, mut reply @ ..] = word.to_be_bytes();
            with_parity(settings, &mut reply);
            read(left, right, settings, 508, 56, &reply)?;
        }
        Ok(0x1000)
    })
}

/// Every pattern of the address digits, polled at every address and at some that are refused.
pub fn addresses<L: Core, R: Core>(left: &L, right: &R) -> Verdict {
    in_parts(1_024, |part| {
        let address = match part {
            1_023 => u16::MAX,
            1_022 => 0x8000,
            _ => part as u16,
        };
        for digits in 0..0x1000u64 {
            let word = 1 << 39 | digits << 25;
            let settings = if word.count_ones() & 1 == 1 {
                ODD_PARITY
            } else {
                0
            };
            let [_, _, _, reply @ ..] = word.to_be_bytes();
            read(left, right, settings, address, 40, &reply)?;
        }
        Ok(0x1000)
    })
}

/// Counts from 0 up with every number of bytes, pad bits good and bad, under settings good and
/// refused.
pub fn counts<L: Core, R: Core>(left: &L, right: &R, seed: u64) -> Verdict {
    let mut random = Random::new(seed, 0);
    let mut asked = 0;
    let huge = [
        usize::MAX,
        usize::MAX - 7,
        1 << 32,
        (1 << 32) + 40,
        256 + 40,
        65_536 + 40,
    ];
    for count in (0..=130).chain(huge) {
        for length in 0..=17usize {
            let mut reply = [0; 17];
            for pattern in 0..8 {
                match pattern {
                    0 => reply.fill(0),
                    1 => reply.fill(0xFF),
                    2 => reply.fill(0x80),
                    3 => {
                        reply.fill(0);
                        reply[length.saturating_sub(1)] = 1;
                    }
                    4 => {
                        // the one pad bit next to the last bit of the count
                        reply.fill(0);
                        reply[count / 8 % 17] = 0x80 >> (count % 8);
                    }
                    _ => random.fill(&mut reply),
                }
                for settings in [0, 15, 16, 255] {
                    for address in [0, 999, 1_000] {
                        read(left, right, settings, address, count, &reply[..length])?;
                        asked += 1;
                    }
                }
            }
        }
    }
    Ok(asked)
}

/// Random and damaged replies read, and random readings written into any number of bytes.
pub fn replies<L: Core, R: Core>(left: &L, right: &R, seed: u64, count: usize) -> Verdict {
    const PART: usize = 50_000;
    in_parts(count.div_ceil(PART), |part| {
        let mut random = Random::new(seed, part as u64);
        let here = PART.min(count - part * PART);
        for _ in 0..here {
            let case = generate::damaged_reply(&mut random);
            let reply = case.reply();
            read(left, right, case.settings, case.address, case.count, reply)?;
            // The refusals of the reader's settings and address are the writer's too.
            let reading = generate::reading(&mut random, case.settings);
            let room = random.below(10);
            write(left, right, case.settings, case.address, &reading, room)?;
        }
        Ok(2 * here as u64)
    })
}
