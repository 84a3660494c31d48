//! Polls and replies.

use super::modes::{level_number, level_word, unreadable_place, Mode, MODES};
use super::word::{bit, pack};
use crate::types::{
    Answer, Fault, Poll, Reading, Temperature, LARGEST_ADDRESS, LARGEST_SETTINGS, ODD_PARITY,
    TYPE_1800,
};

const START: u64 = bit(1);
const ALARM_1: u64 = bit(38);
const ALARM_0: u64 = bit(39);

/// Bits of the temperature, within the 16 bits from bit 40 on.
const BIT_40: u16 = 0x8000;
const BIT_41: u16 = 0x4000;
const BIT_42: u16 = 0x2000;
const BIT_43: u16 = 0x1000;

/// Reads a poll. Refusal: 16.
pub fn read_poll(poll: &[u8]) -> Answer<Poll> {
    let &[first, second] = poll else {
        return Err(Fault::Poll);
    };
    let word = u16::from_be_bytes([first, second]);
    let (hundreds, tens, ones) = (word >> 8 & 15, word >> 4 & 15, word & 15);
    if word & 0x8000 == 0 || hundreds > 9 || tens > 9 || ones > 9 {
        return Err(Fault::Poll);
    }
    Ok(Poll {
        address: hundreds * 100 + tens * 10 + ones,
        raise: word & 0x2000 != 0,
        reset: word & 0x1000 != 0,
    })
}

/// Writes a poll into the first 2 bytes. Refusals: 11, 15.
pub fn write_poll(poll: &Poll, out: &mut [u8]) -> Answer<usize> {
    if poll.address > LARGEST_ADDRESS {
        return Err(Fault::AskedAddress);
    }
    let Some(out) = out.first_chunk_mut() else {
        return Err(Fault::Short);
    };
    let raise = u16::from(poll.raise) << 13;
    let reset = u16::from(poll.reset) << 12;
    *out = (0x8000 | raise | reset | decimal_digits(poll.address)).to_be_bytes();
    Ok(2)
}

/// Reads the reply to a poll of `address`. Refusals: 10, 11, 14, then 1 to 9.
pub fn read_reply(settings: u8, address: u16, count: usize, reply: &[u8]) -> Answer<Reading> {
    if settings > LARGEST_SETTINGS {
        return Err(Fault::Settings);
    }
    if address > LARGEST_ADDRESS {
        return Err(Fault::AskedAddress);
    }
    let word = pack(count, reply)?;
    read_word(settings, address, count, word)
}

/// Reads a packed reply whose settings, address and form are good. Refusals: 1 to 9.
#[inline]
pub(super) fn read_word(settings: u8, address: u16, count: usize, word: u64) -> Answer<Reading> {
    if count != 40 && count != 56 {
        return Err(if count == 0 {
            Fault::Silent
        } else {
            Fault::Length
        });
    }
    if word & START == 0 {
        return Err(Fault::Start);
    }
    // The polled address has decimal digits alone, so one comparison refuses both a digit above 9
    // and another address.
    if (word >> 49) as u16 & 0xFFF != decimal_digits(address) {
        return Err(Fault::Address);
    }
    if (word.count_ones() & 1 == 1) != (settings & ODD_PARITY != 0) {
        return Err(Fault::Parity);
    }
    let mode = &MODES[usize::from(settings & 3)];
    if word & mode.fill != 0 {
        return Err(Fault::Fill);
    }
    let Some(level) = level_number(mode, word) else {
        return Err(unreadable(mode, word));
    };
    // Only mode 3 has codes for levels above its largest.
    if level > mode.largest {
        return Err(Fault::Range);
    }
    let temperature = if count == 40 {
        Temperature::Absent
    } else {
        read_temperature(settings, (word >> 9) as u16)?
    };
    Ok(Reading {
        level,
        temperature,
        alarm1: word & ALARM_1 != 0,
        alarm0: word & ALARM_0 != 0,
    })
}

/// Fault 7 with the place of the first digit in no chart.
#[cold]
fn unreadable(mode: &Mode, word: u64) -> Fault {
    let place = unreadable_place(mode, word).and_then(Fault::code);
    place.expect("a level that is not read has a digit in no chart, and never the first")
}

/// Reads bits 40 to 55, lent as a word of 16 bits. Refusal: 9.
#[inline(always)]
fn read_temperature(settings: u8, field: u16) -> Answer<Temperature> {
    let is_1800 = settings & TYPE_1800 != 0;
    if is_1800 && field & (BIT_40 | BIT_43) != 0 {
        return match (field & BIT_43 != 0, field & BIT_40 != 0) {
            (true, false) => Ok(Temperature::Above),
            (true, true) => Ok(Temperature::Below),
            _ => Err(Fault::Temperature),
        };
    }
    let digits = field & 0xFFF;
    // Adding 6 carries out of a digit exactly if the digit is above 9.
    if ((digits + 0x666) ^ digits ^ 0x666) & 0x1110 != 0 {
        return Err(Fault::Temperature);
    }
    // A 1900's hundreds' bits are inverted; an 1800's one hundred, bit 42, is not.
    let hundreds = if is_1800 {
        field >> 13 & 1
    } else {
        !field >> 15 & 1 | !field >> 12 & 2 | !field >> 10 & 4
    };
    let tenths = (hundreds * 1_000 + number_of_digits(digits)) as i16;
    let positive = field & BIT_41 != 0;
    Ok(Temperature::Degrees(if positive {
        tenths
    } else {
        -tenths
    }))
}

/// Writes a reply into the first 5 or 7 bytes. Refusals: 10, 11, 15.
pub fn write_reply(settings: u8, address: u16, reading: &Reading, out: &mut [u8]) -> Answer<usize> {
    if settings > LARGEST_SETTINGS {
        return Err(Fault::Settings);
    }
    if address > LARGEST_ADDRESS {
        return Err(Fault::AskedAddress);
    }
    let alarm_1 = if reading.alarm1 { ALARM_1 } else { 0 };
    let alarm_0 = if reading.alarm0 { ALARM_0 } else { 0 };
    let level = level_word(&MODES[usize::from(settings & 3)], reading.level);
    let word = START | u64::from(decimal_digits(address)) << 49 | level | alarm_1 | alarm_0;
    if reading.temperature == Temperature::Absent {
        let Some(out) = out.first_chunk_mut::<5>() else {
            return Err(Fault::Short);
        };
        let [a, b, c, d, e, ..] = with_parity(settings, word, bit(40)).to_be_bytes();
        *out = [a, b, c, d, e];
        Ok(5)
    } else {
        let Some(out) = out.first_chunk_mut::<7>() else {
            return Err(Fault::Short);
        };
        let field = u64::from(temperature_field(settings, reading.temperature)) << 9;
        let bytes = with_parity(settings, word | field, bit(56)).to_be_bytes();
        // Two overlapping stores of four bytes are cheaper than seven of one.
        out[..4].copy_from_slice(&bytes[..4]);
        out[3..].copy_from_slice(&bytes[3..7]);
        Ok(7)
    }
}

/// Sets the parity bit if the word needs it.
#[inline]
fn with_parity(settings: u8, word: u64, parity: u64) -> u64 {
    let odd = word.count_ones() & 1 == 1;
    if odd != (settings & ODD_PARITY != 0) {
        word | parity
    } else {
        word
    }
}

/// Bits 40 to 55 of a temperature.
#[inline]
fn temperature_field(settings: u8, temperature: Temperature) -> u16 {
    // Above and below lie beyond either type's range.
    let tenths = match temperature {
        Temperature::Degrees(tenths) => tenths,
        Temperature::Above => i16::MAX,
        Temperature::Below => i16::MIN,
        Temperature::Absent => return 0,
    };
    let sign = if tenths >= 0 { BIT_41 } else { 0 };
    let size = tenths.unsigned_abs();
    if settings & TYPE_1800 != 0 {
        return match (size, tenths >= 0) {
            (0..=999, _) => sign | decimal_digits(size),
            (1_000..=1_999, _) => sign | BIT_42 | decimal_digits(size - 1_000),
            (_, true) => sign | BIT_43,
            (_, false) => BIT_43 | BIT_40,
        };
    }
    let size = size.min(7_999);
    sign | HUNDREDS[usize::from((size / 1_000) & 7)] | decimal_digits(size % 1_000)
}

/// The hundreds of a 1900 in bits 40, 42 and 43, each inverted.
static HUNDREDS: [u16; 8] = {
    let mut fields = [0; 8];
    let mut hundreds = 0;
    while hundreds < 8 {
        let inverted = !(hundreds as u16);
        fields[hundreds] = ((inverted & 1) * BIT_40)
            | ((inverted >> 1 & 1) * BIT_42)
            | ((inverted >> 2 & 1) * BIT_43);
        hundreds += 1;
    }
    fields
};

/// The three decimal digits of a number up to 999, four bits each.
#[inline]
fn decimal_digits(number: u16) -> u16 {
    DECIMAL_DIGITS[usize::from(number % 1_024)]
}

/// By number; the last entries are never asked for and spare a check of the bounds.
static DECIMAL_DIGITS: [u16; 1_024] = {
    let mut digits = [0; 1_024];
    let mut number = 0;
    while number <= LARGEST_ADDRESS {
        digits[number as usize] = (number / 100) << 8 | (number / 10 % 10) << 4 | (number % 10);
        number += 1;
    }
    digits
};

/// The number of three decimal digits, four bits each.
#[inline]
fn number_of_digits(digits: u16) -> u16 {
    digits - 6 * (digits >> 4) - 60 * (digits >> 8)
}
