//! Enraf item records, right but for one mistake.

use super::RIGHT;
use sisalcove_host::calls::Items;
use sisalcove_host::types::items::{Item, ItemAsked, ERROR, SETTING, SETTING_TAKEN, VALUE};
use sisalcove_host::types::{Answer, Fault};

/// The mistakes.
#[derive(Clone, Copy, Debug, PartialEq, Eq)]
pub enum Mistold {
    CheckWithCarry,
    StxInCheck,
    EtxNotInCheck,
    CheckInSevenBits,
    CheckInEightBits,
    CheckBeforeFraming,
    TextBeforeAddress,
    WildcardsTaken,
    SmallLetterTaken,
    EqualsInData,
    TakenSettingAsSetting,
    TwoErrorDigits,
    ErrorReversed,
    SeventeenthCharacterDropped,
    LongRecordIsFraming,
    FirstEtxEnds,
    ShortBeforeText,
    TextBeforeAddressWritten,
    WritesOneMore,
    RefusedWriteChanges,
    DataIgnoredBesideAlone,
    ErrorIgnoredBesideValue,
    NumbersCutToByte,
    TildeRefused,
    DeleteTaken,
    ErrorOfFourDigits,
    SeventhKind,
    DataLeftBehindItsLength,
}

use Mistold::*;

/// The damaged core.
pub struct Clerk(pub Option<Mistold>);

/// The right block check.
fn right_check(record: &[u8]) -> u8 {
    let checked = &record[1..record.len() - 1];
    checked.iter().fold(0, |sum, byte| sum ^ byte) & 0x7F
}

/// The record with its check made good.
fn mended(record: &[u8]) -> Vec<u8> {
    let mut record = record.to_vec();
    if let Some(last) = record.len().checked_sub(1).filter(|&last| last > 0) {
        record[last] = right_check(&record);
    }
    record
}

/// The record with one byte changed and its check made good.
fn with(record: &[u8], place: usize, byte: u8) -> Vec<u8> {
    let mut record = record.to_vec();
    record[place] = byte;
    mended(&record)
}

impl Clerk {
    fn is(&self, mistake: Mistold) -> bool {
        self.0 == Some(mistake)
    }

    /// The block check by a mistake of its own.
    fn check(&self, record: &[u8]) -> u8 {
        let last = record.len() - 1;
        let xor = |bytes: &[u8]| bytes.iter().fold(0, |sum, byte| sum ^ byte);
        match self.0 {
            Some(CheckWithCarry) => {
                let sum = |sum: u8, byte: &u8| sum.wrapping_add(*byte);
                record[1..last].iter().fold(0, sum) & 0x7F
            }
            Some(StxInCheck) => xor(&record[..last]) & 0x7F,
            Some(EtxNotInCheck) => xor(&record[1..last - 1]) & 0x7F,
            Some(CheckInEightBits) => xor(&record[1..last]),
            _ => right_check(record),
        }
    }
}

/// The error with its digits from the other end.
fn reversed(error: u16) -> u16 {
    error % 10 * 100 + error / 10 % 10 * 10 + error / 100
}

impl Items for Clerk {
    fn read_item(&self, record: &[u8]) -> Answer<Item> {
        let right = RIGHT.read_item(record);
        let Some(mistake) = self.0 else {
            return right;
        };
        match (mistake, right) {
            (CheckWithCarry | StxInCheck | EtxNotInCheck | CheckInEightBits, right) => {
                if right == Err(Fault::Framing) {
                    return right;
                }
                if self.check(record) != record[record.len() - 1] {
                    return Err(Fault::BlockCheck);
                }
                RIGHT.read_item(&mended(record))
            }
            (CheckInSevenBits, Err(Fault::BlockCheck)) => {
                let last = record.len() - 1;
                match (record[last] ^ right_check(record)) & 0x7F {
                    0 => RIGHT.read_item(&mended(record)),
                    _ => right,
                }
            }
            (CheckBeforeFraming, Err(Fault::Framing)) if record.len() > 1 => {
                match right_check(record) == record[record.len() - 1] {
                    true => right,
                    false => Err(Fault::BlockCheck),
                }
            }
            (TextBeforeAddress, Err(Fault::ItemAddress)) => {
                let mut changed = record.to_vec();
                changed[1..4].copy_from_slice(b"000");
                RIGHT.read_item(&mended(&changed)).and(right)
            }
            (WildcardsTaken, Err(Fault::ItemAddress)) if record[1] == b'@' => {
                RIGHT.read_item(&with(record, 1, b'0'))
            }
            (SmallLetterTaken, Err(Fault::ItemText)) => {
                RIGHT.read_item(&with(record, 7, record[7].to_ascii_uppercase()))
            }
            (EqualsInData, Err(Fault::ItemText)) => {
                let later = record.iter().skip(9).position(|&byte| byte == b'=');
                let Some(place) = later else { return right };
                let mut item = RIGHT.read_item(&with(record, place + 9, b'-'))?;
                for one in &mut item.data {
                    *one = if *one == b'-' { b'=' } else { *one };
                }
                Ok(item)
            }
            (TakenSettingAsSetting, Ok(mut item)) if item.kind == SETTING_TAKEN => {
                if item.length < 16 {
                    item.data[usize::from(item.length)] = b'&';
                    item.length += 1;
                    item.kind = SETTING;
                }
                Ok(item)
            }
            (TwoErrorDigits, Err(Fault::ItemText)) if record.len() == 13 && record[8] == b'!' => {
                let mut longer = record.to_vec();
                longer.insert(9, b'0');
                RIGHT.read_item(&mended(&longer))
            }
            (ErrorReversed, Ok(mut item)) => {
                item.error = reversed(item.error);
                Ok(item)
            }
            (SeventeenthCharacterDropped, Err(Fault::ItemText)) if record.len() > 26 => {
                let mut shorter = record.to_vec();
                shorter.remove(24);
                RIGHT.read_item(&mended(&shorter))
            }
            (LongRecordIsFraming, Err(_)) if record.len() > 28 => Err(Fault::Framing),
            (FirstEtxEnds, Err(fault)) if fault != Fault::Framing => {
                match record[6..record.len() - 2].contains(&3) {
                    true => Err(Fault::Framing),
                    false => right,
                }
            }
            (TildeRefused, Ok(item)) if item.data.contains(&b'~') => Err(Fault::ItemText),
            (DeleteTaken, Err(Fault::ItemText)) => {
                let place = record.iter().skip(8).position(|&byte| byte == 0x7F);
                let Some(place) = place else { return right };
                RIGHT.read_item(&with(record, place + 8, b'x'))
            }
            (DataLeftBehindItsLength, Ok(mut item)) => {
                if item.length > 0 && item.length < 16 {
                    item.data[15] = 1;
                }
                Ok(item)
            }
            _ => right,
        }
    }

    fn write_item(&self, item: &ItemAsked, out: &mut [u8]) -> Answer<usize> {
        let mut item = *item;
        if self.is(NumbersCutToByte) {
            item.ciu &= 0xFF;
            item.gauge &= 0xFF;
        }
        if self.is(ErrorReversed) && item.error < 1_000 {
            item.error = reversed(item.error);
        }
        if self.is(ErrorOfFourDigits) && item.kind == ERROR && item.error < 10_000 {
            item.error %= 1_000;
        }
        let room = out.len();
        let answer = RIGHT.write_item(&item, out);
        match (self.0, answer) {
            (Some(ShortBeforeText), Err(Fault::ItemText)) if room < 10 => Err(Fault::ItemShort),
            (Some(TextBeforeAddressWritten), Err(Fault::ItemAddress)) => {
                let item = ItemAsked {
                    ciu: 0,
                    gauge: 0,
                    ..item
                };
                match RIGHT.write_item(&item, &mut [0; 28]) {
                    Err(Fault::ItemText) => Err(Fault::ItemText),
                    _ => answer,
                }
            }
            (Some(RefusedWriteChanges), Err(Fault::ItemShort)) if room > 0 => {
                out[0] = 2;
                answer
            }
            (Some(DataIgnoredBesideAlone), Err(Fault::ItemText)) if item.kind == 1 => {
                RIGHT.write_item(&ItemAsked { data: &[], ..item }, out)
            }
            (Some(ErrorIgnoredBesideValue), Err(Fault::ItemText)) if item.kind == VALUE => {
                RIGHT.write_item(&ItemAsked { error: 0, ..item }, out)
            }
            (Some(SeventhKind), Err(Fault::ItemText)) if item.kind == 7 => {
                RIGHT.write_item(&ItemAsked { kind: 1, ..item }, out)
            }
            (Some(SeventeenthCharacterDropped), Err(Fault::ItemText)) if item.data.len() == 17 => {
                let data = &item.data[..16];
                RIGHT.write_item(&ItemAsked { data, ..item }, out)
            }
            (Some(_), Ok(bytes)) => {
                if self.is(WritesOneMore) && bytes < room {
                    out[bytes] = 0;
                }
                out[bytes - 1] = self.check(&out[..bytes]);
                answer
            }
            _ => answer,
        }
    }
}
