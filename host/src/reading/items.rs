//! Item records by the shapes of their text: a record is taken apart by one pattern, and its text
//! by one of six.

use super::IndependentReading;
use crate::calls::Items;
use crate::types::items::{
    Item, ItemAsked, ALONE, ERROR, LONGEST_RECORD, MOST_DATA, SETTING, SETTING_TAKEN,
    SHORTEST_RECORD, TAKEN, VALUE,
};
use crate::types::{Answer, Fault};

const STX: u8 = 0x02;
const ETX: u8 = 0x03;

impl Items for IndependentReading {
    // Kept out of line, as calls of the archive are.
    #[inline(never)]
    fn read_item(&self, record: &[u8]) -> Answer<Item> {
        read(record)
    }

    #[inline(never)]
    fn write_item(&self, item: &ItemAsked, out: &mut [u8]) -> Answer<usize> {
        write(item, out)
    }
}

/// Reads a record. Refusals: 29, 30, 31, 32.
pub fn read(record: &[u8]) -> Answer<Item> {
    if record.len() < SHORTEST_RECORD {
        return Err(Fault::Framing);
    }
    let &[STX, ciu, tens, ones, b'B', b'Z', ref text @ .., ETX, check] = record else {
        return Err(Fault::Framing);
    };
    if check != block_check(&record[1..record.len() - 1]) {
        return Err(Fault::BlockCheck);
    }
    let (Some(ciu), Some(tens), Some(ones)) = (digit(ciu), digit(tens), digit(ones)) else {
        return Err(Fault::ItemAddress);
    };
    let (letters, kind, data, error) = shape(text).ok_or(Fault::ItemText)?;
    let mut kept = [0; MOST_DATA];
    kept[..data.len()].copy_from_slice(data);
    Ok(Item {
        ciu,
        gauge: 10 * tens + ones,
        letters,
        kind,
        error,
        data: kept,
        length: data.len() as u8,
    })
}

/// The sum without carry of these bytes, in seven bits.
fn block_check(bytes: &[u8]) -> u8 {
    bytes.iter().fold(0, |sum, byte| sum ^ byte) & 0x7F
}

/// The number of a decimal digit.
fn digit(character: u8) -> Option<u8> {
    character.is_ascii_digit().then(|| character - b'0')
}

/// Letters, kind, data and error of an item's text, if it has one of the six shapes. Data has no
/// "&", "!" or "=", so at most one shape fits.
fn shape(text: &[u8]) -> Option<([u8; 2], u8, &[u8], u16)> {
    let (&letters, tail) = text.split_first_chunk()?;
    if !letters.iter().all(u8::is_ascii_uppercase) {
        return None;
    }
    let (kind, data, error): (u8, &[u8], u16) = match tail {
        [] => (ALONE, &[], 0),
        [b'&'] => (TAKEN, &[], 0),
        [b'=', data @ .., b'&'] => (SETTING_TAKEN, data, 0),
        [b'=', data @ ..] => (SETTING, data, 0),
        &[b'!', a, b, c] => {
            let digits = [digit(a)?, digit(b)?, digit(c)?];
            let number = digits.iter().fold(0, |all, &one| 10 * all + u16::from(one));
            (ERROR, &[], number)
        }
        data => (VALUE, data, 0),
    };
    (has_data(kind) == clean(data)).then_some((letters, kind, data, error))
}

/// Whether a kind has data.
fn has_data(kind: u8) -> bool {
    matches!(kind, SETTING | SETTING_TAKEN | VALUE)
}

/// Whether these are data: 1 to 16 characters from blank to "~", none of the three signs.
fn clean(data: &[u8]) -> bool {
    let good = |&one: &u8| matches!(one, b' '..=b'~') && !matches!(one, b'&' | b'!' | b'=');
    (1..=MOST_DATA).contains(&data.len()) && data.iter().all(good)
}

/// Writes a record into the first bytes and answers how many. Refusals: 31, 32, 33.
pub fn write(item: &ItemAsked, out: &mut [u8]) -> Answer<usize> {
    if item.ciu > 9 || item.gauge > 99 {
        return Err(Fault::ItemAddress);
    }
    let is_known = (ALONE..=ERROR).contains(&item.kind);
    let letters_good = item.letters.iter().all(u8::is_ascii_uppercase);
    let data_good = match has_data(item.kind) {
        true => clean(item.data),
        false => item.data.is_empty(),
    };
    let error_good = item.error <= if item.kind == ERROR { 999 } else { 0 };
    if !(is_known && letters_good && data_good && error_good) {
        return Err(Fault::ItemText);
    }
    let mut record = Record::default();
    let gauge = item.gauge as u8;
    let head = [item.ciu as u8, gauge / 10, gauge % 10].map(|digit| b'0' + digit);
    record.put(&[STX, head[0], head[1], head[2], b'B', b'Z']);
    record.put(&item.letters);
    if let SETTING | SETTING_TAKEN = item.kind {
        record.put(b"=");
    }
    record.put(item.data);
    match item.kind {
        TAKEN | SETTING_TAKEN => record.put(b"&"),
        ERROR => {
            let places = [100, 10, 1].map(|place| (item.error / place % 10) as u8);
            record.put(b"!");
            record.put(&places.map(|digit| b'0' + digit));
        }
        _ => {}
    }
    record.put(&[ETX]);
    let check = block_check(&record.bytes[1..record.length]);
    record.put(&[check]);
    let Some(room) = out.get_mut(..record.length) else {
        return Err(Fault::ItemShort);
    };
    room.copy_from_slice(&record.bytes[..record.length]);
    Ok(record.length)
}

/// A record put together from the front.
#[derive(Default)]
struct Record {
    bytes: [u8; LONGEST_RECORD],
    length: usize,
}

impl Record {
    /// Puts bytes at the end; an item that was judged good has room for all.
    fn put(&mut self, bytes: &[u8]) {
        let end = self.length + bytes.len();
        self.bytes[self.length..end].copy_from_slice(bytes);
        self.length = end;
    }
}
