//! The text of a listing.

use super::frame::read_word;
use super::sheet::{look, read_slot, slots};
use crate::types::{Answer, Fault, Record, Slot, Temperature, LINE, SLOT};

/// The text of the program "list" for a sheet, appended.
pub fn list(sheet: &[u8], text: &mut Vec<u8>) {
    let start = text.len();
    let slots = slots(sheet);
    // Room for every line at its longest, so that lines are written in place.
    text.resize(start + (slots.unwrap_or(0) + 2) * LINE, 0);
    let mut lines = Lines {
        bytes: &mut text[start..],
        end: 0,
    };
    match slots {
        Err(fault) => lines.counted(b"fault ", usize::from(fault.number())),
        Ok(slots) => {
            lines.counted(b"sheet ", slots);
            let mut records = 0;
            for (place, bytes) in sheet.chunks_exact(SLOT).enumerate() {
                let Some(bytes) = bytes.first_chunk() else {
                    continue;
                };
                let slot = read_slot(bytes);
                records += usize::from(matches!(slot, Slot::Record(_)));
                lines.slot(place, &slot);
            }
            lines.counted(b"records ", records);
        }
    }
    let end = start + lines.end;
    text.truncate(end);
}

/// The first line into the front of `out`; answers its bytes. Refusal: 12.
pub fn head_line(sheet: &[u8], out: &mut [u8]) -> Answer<usize> {
    let slots = slots(sheet)?;
    one_line(out, |line| line.counted(b"sheet ", slots))
}

/// The line of a slot, nothing for a blank one. Refusal: 12.
pub fn slot_line(sheet: &[u8], slot: usize, out: &mut [u8]) -> Answer<usize> {
    let seen = look(sheet, slot)?;
    one_line(out, |line| line.slot(slot, &seen))
}

/// The last line. Refusal: 12.
pub fn last_line(sheet: &[u8], out: &mut [u8]) -> Answer<usize> {
    slots(sheet)?;
    let is_record = |bytes: &&[u8]| match bytes.first_chunk() {
        Some(bytes) => matches!(read_slot(bytes), Slot::Record(_)),
        None => false,
    };
    let records = sheet.chunks_exact(SLOT).filter(is_record).count();
    one_line(out, |line| line.counted(b"records ", records))
}

/// Makes a line apart and copies it, so that no byte past it changes. Document 01 does not speak
/// of a buffer too short for a line; fault 15 is its nearest word.
fn one_line(out: &mut [u8], make: impl FnOnce(&mut Lines)) -> Answer<usize> {
    let mut bytes = [0; LINE];
    let mut line = Lines {
        bytes: &mut bytes,
        end: 0,
    };
    make(&mut line);
    let end = line.end.min(LINE);
    let out = out.get_mut(..end).ok_or(Fault::Short)?;
    out.copy_from_slice(&bytes[..end]);
    Ok(end)
}

/// Lines in the making. The bytes are always enough; what would pass them is left out.
struct Lines<'a> {
    bytes: &'a mut [u8],
    end: usize,
}

impl Lines<'_> {
    /// A line of a word and a number.
    fn counted(&mut self, word: &[u8], number: usize) {
        self.word(word);
        self.number(number as u32);
        self.word(b"\n");
    }

    /// The line of a slot; a blank one has none.
    #[inline]
    fn slot(&mut self, place: usize, slot: &Slot) {
        if *slot == Slot::Blank {
            return;
        }
        self.number(place as u32);
        match slot {
            Slot::Blank => {}
            Slot::Spoiled => self.word(b" spoiled\n"),
            Slot::Foreign => self.word(b" foreign\n"),
            Slot::Record(record) => self.record(record),
        }
    }

    /// What a record's line says after the slot.
    #[inline]
    fn record(&mut self, record: &Record) {
        self.word(b" ");
        self.number(record.minute);
        self.word(b" ");
        self.number(u32::from(record.address));
        // A record's settings, address and form are good, so only the faults 1 to 9 are left.
        let word = u64::from_be_bytes(record.reply);
        let count = usize::from(record.count);
        match read_word(record.settings, record.address, count, word) {
            Err(fault) => {
                self.word(b" fault ");
                self.number(u32::from(fault.number()));
                if fault.number() == 7 {
                    self.word(b" ");
                    self.number(u32::from(fault.place()));
                }
                self.word(b"\n");
            }
            Ok(reading) => {
                self.word(b" ");
                self.number(u32::from(reading.level));
                match reading.temperature {
                    Temperature::Absent => self.word(b" -"),
                    Temperature::Above => self.word(b" above"),
                    Temperature::Below => self.word(b" below"),
                    Temperature::Degrees(tenths) => {
                        self.word(b" -");
                        self.end -= usize::from(tenths >= 0);
                        self.number(u32::from(tenths.unsigned_abs()));
                    }
                }
                let alarm_1 = b'0' + u8::from(reading.alarm1);
                let alarm_0 = b'0' + u8::from(reading.alarm0);
                self.word(&[b' ', alarm_1, b' ', alarm_0, b'\n']);
            }
        }
    }

    #[inline]
    fn word(&mut self, word: &[u8]) {
        if let Some(place) = self.bytes.get_mut(self.end..self.end + word.len()) {
            place.copy_from_slice(word);
            self.end += word.len();
        }
    }

    #[inline]
    fn number(&mut self, number: u32) {
        const EIGHT: u32 = 100_000_000;
        if number < EIGHT {
            self.without_zeros(eight_digits(number));
        } else {
            self.without_zeros(eight_digits(number / EIGHT));
            self.digits(eight_digits(number % EIGHT), 8);
        }
    }

    /// Eight digits without their leading zeros, which are the low bytes of the word. The last
    /// digit stays even if it is 0.
    #[inline]
    fn without_zeros(&mut self, digits: u64) {
        let zeros = (digits.trailing_zeros() / 8).min(7);
        self.digits(digits >> (8 * zeros), 8 - zeros as usize);
    }

    /// The first `count` digits of a word. All eight bytes are stored, which is cheaper than to
    /// choose; those past the count are written over by what follows, and every line has room.
    #[inline]
    fn digits(&mut self, digits: u64, count: usize) {
        let ascii = (digits | ZEROS).to_le_bytes();
        if let Some(place) = self.bytes.get_mut(self.end..self.end + 8) {
            place.copy_from_slice(&ascii);
            self.end += count;
        }
    }
}

/// Eight times the character 0.
const ZEROS: u64 = u64::from_le_bytes([b'0'; 8]);

/// The eight decimal digits of a number below 100,000,000, one in each byte, the first digit in
/// the lowest byte. The number is split in halves three times, all lanes of the word at once;
/// division by 100 and by 10 is multiplication and a shift, exact for the few digits of a lane.
#[inline]
fn eight_digits(number: u32) -> u64 {
    let fours = u64::from(number / 10_000) | u64::from(number % 10_000) << 32;
    let hundreds = ((fours * 10_486) >> 20) & 0x0000_007F_0000_007F;
    let twos = hundreds | (fours - 100 * hundreds) << 16;
    let tens = ((twos * 103) >> 10) & 0x000F_000F_000F_000F;
    tens | (twos - 10 * tens) << 8
}

#[cfg(test)]
mod tests {
    use super::*;

    #[test]
    fn numbers_are_written_as_rust_writes_them() {
        let mut numbers = vec![u32::MAX, u32::MAX - 1];
        for power in 0..10 {
            let ten = 10u32.pow(power);
            numbers.extend([ten - 1, ten, ten + 1, ten * 2, ten * 3 + ten / 2]);
        }
        numbers.extend(0..100_000);
        numbers.extend((0..4_000_000_000).step_by(99_991));
        for number in numbers {
            let mut bytes = [0; LINE];
            let mut line = Lines {
                bytes: &mut bytes,
                end: 0,
            };
            line.number(number);
            let end = line.end;
            assert_eq!(&bytes[..end], number.to_string().as_bytes());
        }
    }
}
