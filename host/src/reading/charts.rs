//! The charts of the level digits, and the tables made from them at compile time.
//!
//! A chart is read from its other end if the digit just above is odd. To look up fewer times, a
//! level is taken in three parts: its first two digits together (the head), the next two together
//! (the pair), and what is left (the last, which the modes in feet do not have). The number of a
//! part is odd exactly if its lowest digit is, because every lower digit has an even number of
//! values, so the number tells how to read the part below it.

/// The digits' charts, each code at the place of its digit.
const BIT: [u8; 2] = [0, 1];
const BITS_2: [u8; 4] = [0b00, 0b01, 0b11, 0b10];
const FEET_TENS: [u8; 8] = [0b000, 0b001, 0b011, 0b010, 0b110, 0b111, 0b101, 0b100];
const DECIMAL: [u8; 10] = [
    0b0000, 0b0001, 0b0011, 0b0010, 0b0110, 0b0111, 0b0101, 0b0100, 0b1100, 0b1000,
];
const INCHES: [u8; 12] = [
    0b0000, 0b0001, 0b0011, 0b0010, 0b0110, 0b0111, 0b0101, 0b0100, 0b1100, 0b1101, 0b1111, 0b1110,
];
const SIXTEENTHS: [u8; 16] = [
    0b0000, 0b0001, 0b0011, 0b0010, 0b0110, 0b0111, 0b0101, 0b0100, 0b1100, 0b1101, 0b1111, 0b1110,
    0b1010, 0b1011, 0b1001, 0b1000,
];
/// A digit of no bits, always 0.
const NONE: [u8; 1] = [0];

/// Stands in a reading table where no chart has the code. No part's number reaches it.
pub const NO_CODE: u8 = 0xFF;

/// The code of the digit `d` of a chart, turned if the digit above is odd.
const fn code(chart: &[u8], d: usize, above: usize) -> u8 {
    if above % 2 == 1 {
        chart[chart.len() - 1 - d]
    } else {
        chart[d]
    }
}

/// A table both ways for one part of a level: entries 0 to 255 are read straight, 256 to 511
/// turned.
pub struct Part {
    /// Codes by number.
    pub code: [u8; 512],
    /// Numbers by code, or [`NO_CODE`].
    pub number: [u8; 512],
    /// The charts of the two digits, and the bits of the lower one's code.
    upper: &'static [u8],
    lower: &'static [u8],
    bits: u32,
}

impl Part {
    /// Which of the two digits, 0 or 1, is the first whose code is in no place of its chart.
    pub fn unreadable(&self, code: u8) -> Option<u8> {
        let digits = [code >> self.bits, code & !(0xFF << self.bits)];
        let known = [
            self.upper.contains(&digits[0]),
            self.lower.contains(&digits[1]),
        ];
        known
            .iter()
            .position(|known| !known)
            .map(|digit| digit as u8)
    }
}

/// The part of two digits, the code of the lower one taking `bits` bits.
const fn part(upper: &'static [u8], lower: &'static [u8], bits: u32) -> Part {
    let mut part = Part {
        code: [0; 512],
        number: [NO_CODE; 512],
        upper,
        lower,
        bits,
    };
    let numbers = upper.len() * lower.len();
    let mut entry = 0;
    while entry < 2 * numbers {
        let (above, number) = (entry / numbers, entry % numbers);
        let (u, l) = (number / lower.len(), number % lower.len());
        let both = code(upper, u, above) << bits | code(lower, l, u);
        part.code[above * 256 + number] = both;
        part.number[above * 256 + both as usize] = number as u8;
        entry += 1;
    }
    part
}

/// The heads: feet tens with feet, metre tens with metres.
pub static FEET: Part = part(&FEET_TENS, &DECIMAL, 4);
pub static METRES_20: Part = part(&BIT, &DECIMAL, 4);
pub static METRES_30: Part = part(&BITS_2, &DECIMAL, 4);

/// The pairs.
pub static INCHES_16: Part = part(&INCHES, &SIXTEENTHS, 4);
pub static TWO_DECIMALS: Part = part(&DECIMAL, &DECIMAL, 4);

/// The lasts: a decimal digit, or nothing.
pub static ONE_DECIMAL: Part = part(&DECIMAL, &NONE, 0);
pub static NOTHING: Part = part(&NONE, &NONE, 0);

#[cfg(test)]
mod tests {
    use super::*;

    #[test]
    fn every_number_has_a_code_of_its_own_and_no_other_code_is_known() {
        let parts: [(&Part, usize); 7] = [
            (&FEET, 80),
            (&METRES_20, 20),
            (&METRES_30, 40),
            (&INCHES_16, 192),
            (&TWO_DECIMALS, 100),
            (&ONE_DECIMAL, 10),
            (&NOTHING, 1),
        ];
        for (part, numbers) in parts {
            for turned in [0, 256] {
                let known = &part.number[turned..turned + 256];
                let count = known.iter().filter(|&&number| number != NO_CODE).count();
                assert_eq!(count, numbers);
                for number in 0..numbers {
                    let code = usize::from(part.code[turned + number]);
                    assert_eq!(usize::from(part.number[turned + code]), number);
                }
            }
        }
    }
}
