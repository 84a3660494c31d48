//! The four modes of the level, with their numbers written out as constants.
//!
//! All four are read and written by the same few lines, without a choice by mode: a reader that
//! hears transmitters of several modes would guess such a choice wrong half the time.

use super::charts::{
    Part, FEET, INCHES_16, METRES_20, METRES_30, NOTHING, NO_CODE, ONE_DECIMAL, TWO_DECIMALS,
};
use super::word::{bit, bits};

/// What a mode says of the level's bits.
pub struct Mode {
    /// Bits that must be 0.
    pub fill: u64,
    /// The invalid level: every digit bit 1.
    invalid: u64,
    /// Largest level, in the mode's unit.
    pub largest: u16,
    /// The first two digits, then the next two, then the last.
    head: Place,
    pair: Place,
    last: Place,
}

/// Where a part of the level stands and what it counts.
struct Place {
    part: &'static Part,
    /// How far its lowest bit is from the word's.
    shift: u32,
    /// Its bits, shifted down.
    mask: u8,
    /// What one of it is worth in the mode's unit.
    worth: u16,
    /// 2 to the 26th by `worth`, rounded up. A level times this, shifted back, is the level
    /// divided: the error stays below one part in 65,536 for any worth up to 1,000.
    inverse: u64,
}

const fn place(part: &'static Part, first: u32, last: u32, worth: u16) -> Place {
    Place {
        part,
        shift: 64 - last,
        mask: 0xFF >> (7 + first - last),
        worth,
        inverse: (1u64 << 26).div_ceil(worth as u64),
    }
}

/// A last part of no bits.
const fn nowhere() -> Place {
    Place {
        mask: 0,
        ..place(&NOTHING, 31, 31, 1)
    }
}

pub static MODES: [Mode; 4] = [
    Mode {
        fill: bit(16) | bits(32, 37),
        invalid: bits(17, 31),
        largest: 15_359,
        head: place(&FEET, 17, 23, 192),
        pair: place(&INCHES_16, 24, 31, 1),
        last: nowhere(),
    },
    Mode {
        fill: bit(16) | bits(32, 37),
        invalid: bits(17, 31),
        largest: 7_999,
        head: place(&FEET, 17, 23, 100),
        pair: place(&TWO_DECIMALS, 24, 31, 1),
        last: nowhere(),
    },
    Mode {
        fill: bits(33, 37),
        invalid: bits(16, 32),
        largest: 19_999,
        head: place(&METRES_20, 16, 20, 1_000),
        pair: place(&TWO_DECIMALS, 21, 28, 10),
        last: place(&ONE_DECIMAL, 29, 32, 1),
    },
    Mode {
        fill: bits(34, 37),
        invalid: bits(16, 33),
        largest: 32_699,
        head: place(&METRES_30, 16, 21, 1_000),
        pair: place(&TWO_DECIMALS, 22, 29, 10),
        last: place(&ONE_DECIMAL, 30, 33, 1),
    },
];

/// The level that the digits in a word say, if each is in its chart.
#[inline(always)]
pub fn level_number(mode: &Mode, word: u64) -> Option<u16> {
    let read = |place: &Place, above: u8| {
        let code = (word >> place.shift) as u8 & place.mask;
        place.part.number[usize::from(above & 1) << 8 | usize::from(code)]
    };
    // A code in no chart makes the next lookup meaningless but harmless; all are judged after.
    let head = read(&mode.head, 0);
    let pair = read(&mode.pair, head);
    let last = read(&mode.last, pair);
    if head == NO_CODE || pair == NO_CODE || last == NO_CODE {
        return None;
    }
    let worth = |place: &Place, number: u8| place.worth * u16::from(number);
    Some(worth(&mode.head, head) + worth(&mode.pair, pair) + u16::from(last))
}

/// The place, from 0 at the top, of the first digit whose code is in no chart. Whether a code is in
/// its chart does not depend on the digit above it, so each part is asked for its digits' own codes:
/// the digit above may have been unreadable too.
pub fn unreadable_place(mode: &Mode, word: u64) -> Option<u8> {
    let mut place = 0;
    for part in [&mode.head, &mode.pair, &mode.last] {
        let code = (word >> part.shift) as u8 & part.mask;
        if let Some(digit) = part.part.unreadable(code) {
            return Some(place + digit);
        }
        place += 2;
    }
    None
}

/// The digits of a level in their places, or the invalid level.
#[inline]
pub fn level_word(mode: &Mode, level: u16) -> u64 {
    if level > mode.largest {
        return mode.invalid;
    }
    let divide = |place: &Place, level: u16| ((u64::from(level) * place.inverse) >> 26) as u16;
    let write = |place: &Place, above: u16, number: u16| {
        let entry = usize::from(above & 1) << 8 | usize::from(number & 0xFF);
        u64::from(place.part.code[entry]) << place.shift
    };
    let head = divide(&mode.head, level);
    let below_head = level - head * mode.head.worth;
    let pair = divide(&mode.pair, below_head);
    let last = below_head - pair * mode.pair.worth;
    write(&mode.head, 0, head) | write(&mode.pair, head, pair) | write(&mode.last, pair, last)
}

#[cfg(test)]
mod tests {
    use super::*;

    #[test]
    fn every_level_comes_back() {
        for mode in &MODES {
            assert_eq!(mode.fill & mode.invalid, 0);
            assert_eq!(mode.fill | mode.invalid, bits(16, 37));
            for level in 0..=mode.largest {
                let word = level_word(mode, level);
                assert_eq!(word & !mode.invalid, 0);
                assert_eq!(level_number(mode, word), Some(level));
            }
            assert_eq!(level_number(mode, mode.invalid), None);
        }
    }

    #[test]
    fn division_by_the_inverse_is_exact() {
        for mode in &MODES {
            for place in [&mode.head, &mode.pair, &mode.last] {
                for level in 0..=u16::MAX {
                    let by_inverse = (u64::from(level) * place.inverse) >> 26;
                    assert_eq!(by_inverse, u64::from(level / place.worth));
                }
            }
        }
    }
}
