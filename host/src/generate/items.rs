//! Enraf items and records, good, damaged and hostile.

use crate::random::Random;
use crate::reading::items::write;
use crate::types::items::{ItemAsked, ERROR, LONGEST_RECORD, MOST_DATA, SETTING, VALUE};
use std::fmt;

/// An item to be written, with data of its own.
#[derive(Clone, PartialEq, Eq)]
pub struct AskedCase {
    pub ciu: u16,
    pub gauge: u16,
    pub letters: [u8; 2],
    pub kind: u8,
    pub error: u16,
    pub data: Vec<u8>,
}

impl AskedCase {
    pub fn asked(&self) -> ItemAsked<'_> {
        ItemAsked {
            ciu: self.ciu,
            gauge: self.gauge,
            letters: self.letters,
            kind: self.kind,
            error: self.error,
            data: &self.data,
        }
    }
}

impl fmt::Debug for AskedCase {
    fn fmt(&self, f: &mut fmt::Formatter) -> fmt::Result {
        self.asked().fmt(f)
    }
}

/// A character that data may have, the ends and those beside the three signs more often.
fn data_character(random: &mut Random) -> u8 {
    const NEAR: &[u8] = b" ~\"%'<>0A";
    loop {
        let character = match random.below(4) {
            0 => NEAR[random.below(NEAR.len())],
            _ => b' ' + random.below(95) as u8,
        };
        if !b"&!=".contains(&character) {
            return character;
        }
    }
}

/// An item that is written.
pub fn item(random: &mut Random) -> AskedCase {
    let kind = 1 + random.below(6) as u8;
    let has_data = kind == SETTING || kind == 4 || kind == VALUE;
    let length = match random.below(4) {
        0 => 1,
        1 => MOST_DATA,
        _ => 1 + random.below(MOST_DATA),
    };
    let length = if has_data { length } else { 0 };
    AskedCase {
        ciu: random.below(10) as u16,
        gauge: random.below(100) as u16,
        letters: [0; 2].map(|_: u8| b'A' + random.below(26) as u8),
        kind,
        error: if kind == ERROR {
            random.below(1_000) as u16
        } else {
            0
        },
        data: (0..length).map(|_| data_character(random)).collect(),
    }
}

/// An item to be written, good or wrong in one of many ways.
pub fn item_asked(random: &mut Random) -> AskedCase {
    let mut case = item(random);
    for _ in 0..[0, 1, 1, 2][random.below(4)] {
        match random.below(10) {
            0 => case.ciu = [10, 42, 256, 261, u16::MAX][random.below(5)],
            1 => case.gauge = [100, 109, 200, 300, 256, 1_000, u16::MAX][random.below(7)],
            2 => case.letters[random.below(2)] = random.byte(),
            3 => case.letters[random.below(2)] = b"@[`az{ 0"[random.below(8)],
            4 => case.kind = random.byte(),
            5 => case.kind = random.below(9) as u8,
            6 => case.error = [1, 999, 1_000, 1_024, u16::MAX][random.below(5)],
            7 => case.data.clear(),
            8 => {
                let length = random.below(20);
                case.data.resize_with(length, || data_character(random));
            }
            _ => {
                let place = random.below(case.data.len() + 1);
                let strange = b"&!=\x1F\x7F\x80\xFF\x00\x03"[random.below(9)];
                case.data.insert(place, strange);
            }
        }
    }
    case
}

/// A record with a good frame and block check around a text, which may be any bytes.
pub fn framed(addresses: &[u8; 3], text: &[u8]) -> Vec<u8> {
    let mut record = [b"\x02", &addresses[..], b"BZ", text, b"\x03\x00"].concat();
    mend(&mut record);
    record
}

/// Makes the block check good again.
pub fn mend(record: &mut [u8]) {
    if let [_, checked @ .., check] = record {
        *check = checked.iter().fold(0, |sum, byte| sum ^ byte) & 0x7F;
    }
}

/// A record, good or damaged in one of many ways.
pub fn record(random: &mut Random) -> Vec<u8> {
    let mut out = [0; LONGEST_RECORD];
    let length = write(&item(random).asked(), &mut out).unwrap_or(0);
    let mut record = out[..length].to_vec();
    let place = random.below(length);
    match random.below(12) {
        // as it was sent
        0 | 1 => return record,
        // one bit, or one byte
        2 => record[place] ^= 1 << random.below(8),
        3 => record[place] = random.byte(),
        // a byte too many or too few
        4 => record.truncate(place),
        5 => record.insert(place, random.byte()),
        6 => drop(record.remove(place)),
        // a sign of the record within it
        7 => record[place] = b"\x02\x03&!=BZ@*0"[random.below(10)],
        // another text
        8 | 9 => {
            let mut text = vec![b'A' + random.below(26) as u8, b'A' + random.below(26) as u8];
            for _ in 0..random.below(24) {
                text.push(match random.below(3) {
                    0 => b"&!=09 ~\x7F\x1F\x03A"[random.below(11)],
                    1 => b'0' + random.below(10) as u8,
                    _ => data_character(random),
                });
            }
            return framed(b"501", &text);
        }
        // two bytes, which may leave the block check good
        10 => {
            let (other, bit) = (random.below(length), 1 << random.below(8));
            record[place] ^= bit;
            record[other] ^= bit;
        }
        // anything
        _ => {
            record.resize(random.below(40), 0);
            random.fill(&mut record);
        }
    }
    if random.coin() {
        mend(&mut record);
    }
    record
}

#[cfg(test)]
mod tests {
    use super::*;
    use crate::random::SEED;
    use crate::reading::items::read;
    use crate::types::Fault;

    #[test]
    fn every_outcome_is_reached() {
        let mut random = Random::new(SEED, 0);
        let (mut reads, mut writes, mut kinds) = ([0u32; 34], [0u32; 34], [0u32; 7]);
        for _ in 0..20_000 {
            let number = |fault: Fault| usize::from(fault.number());
            match read(&record(&mut random)) {
                Ok(item) => kinds[usize::from(item.kind)] += 1,
                Err(fault) => reads[number(fault)] += 1,
            }
            let room = random.below(40);
            let case = item_asked(&mut random);
            let answer = write(&case.asked(), &mut [0; 40][..room]);
            writes[answer.err().map_or(0, number)] += 1;
        }
        assert!(reads[29..=32].iter().all(|&times| times > 500), "{reads:?}");
        assert!(kinds[1..].iter().all(|&times| times > 500), "{kinds:?}");
        assert!(writes[31..].iter().all(|&times| times > 500), "{writes:?}");
        assert!(writes[0] > 2_000, "{writes:?}");
    }
}
