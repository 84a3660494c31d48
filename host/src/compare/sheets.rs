//! Sheets compared: saves, looks and listings.

use super::{in_parts, same, Difference, Hex, Verdict};
use crate::calls::Core;
use crate::generate::{self, SaveCase};
use crate::random::Random;
use crate::types::{Answer, BLANK, LARGEST_SHEET, LINE, SLOT};
use std::fmt;

/// What a line buffer holds before, so that a byte changed too many shows.
const BEFORE: u8 = 0xA5;

/// A line as a call leaves it: its answer, and the whole buffer.
#[derive(PartialEq, Eq)]
struct Line {
    answer: Answer<usize>,
    buffer: [u8; LINE],
}

impl fmt::Debug for Line {
    fn fmt(&self, f: &mut fmt::Formatter) -> fmt::Result {
        let text = self.buffer.escape_ascii();
        write!(f, "{:?} in \"{text}\"", self.answer)
    }
}

fn line(call: impl FnOnce(&mut [u8]) -> Answer<usize>) -> Line {
    let mut buffer = [BEFORE; LINE];
    let answer = call(&mut buffer);
    Line { answer, buffer }
}

/// The sheet's slots that are not blank, for a difference to be read.
fn in_words(sheet: &[u8]) -> String {
    let mut words = format!("sheet of {} bytes", sheet.len());
    let used = sheet.chunks(SLOT).enumerate();
    let used = used.filter(|(_, slot)| slot.iter().any(|&byte| byte != BLANK));
    for (place, slot) in used.take(30) {
        words += &format!("\n    {place}: {slot:02x?}");
    }
    words
}

/// Looks at one slot with both and writes its line.
fn same_slot<L: Core, R: Core>(
    left: &L,
    right: &R,
    sheet: &[u8],
    slot: usize,
) -> Result<(), Difference> {
    same(left.look(sheet, slot), right.look(sheet, slot), || {
        format!("looking at slot {slot} of a {}", in_words(sheet))
    })?;
    let seen = line(|line| left.slot_line(sheet, slot, line));
    let other = line(|line| right.slot_line(sheet, slot, line));
    same(seen, other, || {
        format!("the line of slot {slot} of a {}", in_words(sheet))
    })
}

/// Looks at everything there is to see of a sheet with both.
fn same_sheet<L: Core, R: Core>(left: &L, right: &R, sheet: &[u8]) -> Verdict {
    let slots = sheet.len() / SLOT;
    for slot in (0..slots + 2).chain([1 << 27, usize::MAX / SLOT + 1, usize::MAX]) {
        same_slot(left, right, sheet, slot)?;
    }
    let seen = line(|line| left.head_line(sheet, line));
    let other = line(|line| right.head_line(sheet, line));
    same(seen, other, || {
        format!("the first line of a {}", in_words(sheet))
    })?;
    let seen = line(|line| left.last_line(sheet, line));
    let other = line(|line| right.last_line(sheet, line));
    same(seen, other, || {
        format!("the last line of a {}", in_words(sheet))
    })?;
    let (mut text, mut other) = (Vec::new(), Vec::new());
    left.list(sheet, &mut text);
    right.list(sheet, &mut other);
    same(
        String::from_utf8_lossy(&text),
        String::from_utf8_lossy(&other),
        || format!("the listing of a {}", in_words(sheet)),
    )?;
    Ok(2 * slots as u64 + 13)
}

/// Saves with both into their own copies of one sheet and holds the copies together.
fn same_save<L: Core, R: Core>(
    left: &L,
    right: &R,
    sheet: &mut [u8],
    other: &mut [u8],
    case: &SaveCase,
    allowance: usize,
) -> Result<(), Difference> {
    let entry = case.entry();
    let asked = || format!("saving {entry:?} with {allowance} stores");
    let stores = left.save(sheet, &entry, allowance);
    let other_stores = right.save(other, &entry, allowance);
    same(stores, other_stores, asked)?;
    if sheet != other {
        let differs = sheet.chunks(SLOT).zip(other.chunks(SLOT)).enumerate();
        for (place, (slot, other)) in differs {
            same(Hex(slot), Hex(other), || {
                format!("slot {place} after {}", asked())
            })?;
        }
    }
    Ok(())
}

/// Sheets of every kind of length, saved into and looked at.
pub fn sizes<L: Core, R: Core>(left: &L, right: &R, seed: u64) -> Verdict {
    let lengths: Vec<usize> = (0..=130)
        .chain(LARGEST_SHEET - 33..=LARGEST_SHEET + 33)
        .chain([2 * LARGEST_SHEET, 2 * LARGEST_SHEET + 1])
        .collect();
    in_parts(lengths.len(), |part| {
        let mut random = Random::new(seed, part as u64);
        let mut sheet = vec![BLANK; lengths[part]];
        let mut asked = 0;
        for _ in 0..4 {
            let mut other = sheet.clone();
            let case = generate::save_case(&mut random);
            same_save(left, right, &mut sheet, &mut other, &case, usize::MAX)?;
            asked += 1 + same_sheet(left, right, &sheet)?;
        }
        Ok(asked)
    })
}

/// Sheets made from blank ones by saves with cuts, some that are refused among them, until they
/// are full and a little on.
pub fn honest<L: Core, R: Core>(left: &L, right: &R, seed: u64, count: usize) -> Verdict {
    in_parts(count, |part| {
        let mut random = Random::new(seed, part as u64);
        let slots = match part % 1_000 {
            0 => LARGEST_SHEET / SLOT,
            _ => random.below(24),
        };
        let mut sheet = vec![BLANK; slots * SLOT];
        let mut other = sheet.clone();
        let saves = slots + slots / 4 + 2;
        for _ in 0..saves {
            let case = generate::save_case(&mut random);
            let allowance = generate::allowance(&mut random);
            same_save(left, right, &mut sheet, &mut other, &case, allowance)?;
        }
        Ok(saves as u64 + same_sheet(left, right, &sheet)?)
    })
}

/// Sheets of random bytes, changed records and holes, looked at and then saved into.
pub fn hostile<L: Core, R: Core>(left: &L, right: &R, seed: u64, count: usize) -> Verdict {
    in_parts(count, |part| {
        let mut random = Random::new(seed, part as u64);
        let mut sheet = generate::hostile_sheet(&mut random);
        let mut asked = same_sheet(left, right, &sheet)?;
        let mut other = sheet.clone();
        for _ in 0..3 {
            let case = generate::save_case(&mut random);
            let allowance = generate::allowance(&mut random);
            same_save(left, right, &mut sheet, &mut other, &case, allowance)?;
        }
        asked += 3 + same_sheet(left, right, &sheet)?;
        Ok(asked)
    })
}

/// Records with every one of their slot's bytes changed to every value.
pub fn changed_records<L: Core, R: Core>(
    left: &L,
    right: &R,
    seed: u64,
    records: usize,
) -> Verdict {
    in_parts(records, |part| {
        let mut random = Random::new(seed, part as u64);
        let record = generate::record_bytes(&mut random);
        let mut slot = record;
        for place in 0..SLOT {
            for byte in 0..=u8::MAX {
                slot[place] = byte;
                same_slot(left, right, &slot, 0)?;
            }
            slot[place] = record[place];
        }
        Ok(2 * 256 * SLOT as u64)
    })
}
