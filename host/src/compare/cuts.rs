//! The power cut after any store: one core held to the paper's demand on the list.
//!
//! From a blank sheet, over any saves cut after any number of stores, the list after each save is
//! the list before it, with that record at its end exactly if it passes, a slot was left and the
//! power held through its last store.

use super::{in_parts, same, Difference, Verdict};
use crate::calls::Core;
use crate::generate::{self, SaveCase};
use crate::random::Random;
use crate::types::{
    Answer, Fault, Record, Slot, BLANK, LARGEST_ADDRESS, LARGEST_SETTINGS, LARGEST_SHEET, LINE,
    SLOT,
};

/// The list, one look at a time.
fn list<C: Core>(core: &C, sheet: &[u8]) -> Vec<Record> {
    let record = |slot| match core.look(sheet, slot) {
        Ok(Slot::Record(record)) => Some(record),
        _ => None,
    };
    (0..sheet.len() / SLOT).filter_map(record).collect()
}

/// The record that a save puts down, or the number it is refused with before any slot is sought.
pub(super) fn record_of(case: &SaveCase) -> Answer<Record> {
    let entry = case.entry();
    if entry.settings > LARGEST_SETTINGS {
        return Err(Fault::Settings);
    }
    if entry.address > LARGEST_ADDRESS {
        return Err(Fault::AskedAddress);
    }
    let mut reply = [0; 8];
    let good = entry.count <= 64 && entry.reply.len() == entry.count.div_ceil(8);
    let Some(bytes) = reply.get_mut(..entry.reply.len()).filter(|_| good) else {
        return Err(Fault::Form);
    };
    bytes.copy_from_slice(entry.reply);
    let pads = 8 * entry.reply.len() - entry.count;
    if bytes
        .last()
        .is_some_and(|last| last.trailing_zeros() < pads as u32)
    {
        return Err(Fault::Form);
    }
    Ok(Record {
        settings: entry.settings,
        minute: entry.minute,
        address: entry.address,
        count: entry.count as u8,
        reply,
    })
}

/// Stores of a whole save: two of the length, nine fixed bytes, the reply.
pub(super) fn stores_of(case: &SaveCase) -> usize {
    11 + case.entry().reply.len()
}

/// Saves into a sheet that is otherwise `kept`, and sees that the answer is the stores made, that
/// no byte outside the slot `place` changed, and that the slot reads as the stores left it.
fn save_at<C: Core>(
    core: &C,
    sheet: &mut [u8],
    kept: &[u8],
    place: usize,
    case: &SaveCase,
    allowance: usize,
) -> Result<(), Difference> {
    let entry = case.entry();
    let stores = stores_of(case);
    let asked = || format!("saving {entry:?} with {allowance} stores into slot {place}");
    let answer = core.save(sheet, &entry, allowance);
    same(answer, Ok(allowance.min(stores)), asked)?;
    let (start, end) = (place * SLOT, (place + 1) * SLOT);
    if sheet[..start] != kept[..start] || sheet[end..] != kept[end..] {
        return same("a byte of another slot changed", "none", asked);
    }
    let expected = match allowance {
        0 => Slot::Blank,
        _ if allowance < stores => Slot::Spoiled,
        _ => Slot::Record(record_of(case).map_err(|fault| Difference {
            asked: asked(),
            left: "a record".to_string(),
            right: format!("{fault:?}"),
        })?),
    };
    same(core.look(sheet, place), Ok(expected), asked)
}

/// A full month of saves, each cut after every number of its stores, with the next save made on
/// every sheet so cut.
///
/// A cut save may change one slot alone, which is seen byte by byte; so the list after it is the
/// list before it and what that slot reads as, and one look tells it. After each save that is let
/// through, the whole list is looked at again.
pub fn month<C: Core>(core: &C, seed: u64, saves: usize) -> Verdict {
    const PART: usize = 60; // the saves of a day
    let month = generate::month(&mut Random::new(seed, 0));
    let month = &month[..saves.min(month.len())];
    in_parts(month.len().div_ceil(PART), |part| {
        let mut sheet = vec![BLANK; LARGEST_SHEET];
        let mut kept = sheet.clone();
        let mut records = Vec::new();
        let mut asked = 0;
        for (place, case) in month.iter().enumerate().take((part + 1) * PART) {
            let slot = place * SLOT..(place + 1) * SLOT;
            records.extend(record_of(case));
            if place < part * PART {
                // Looked at more closely in the part that it belongs to.
                let answer = core.save(&mut sheet, &case.entry(), usize::MAX);
                same(answer, Ok(stores_of(case)), || format!("save {place}"))?;
            } else {
                asked += 1 + cut_everywhere(core, &mut sheet, &mut kept, place, month)?;
                save_at(core, &mut sheet, &kept, place, case, stores_of(case))?;
                same(list(core, &sheet), records.clone(), || {
                    format!("the list after save {place} of the month")
                })?;
            }
            kept[slot.clone()].copy_from_slice(&sheet[slot]);
        }
        Ok(asked)
    })
}

/// One save of the month cut after every number of stores, and the next save made after each cut.
/// `kept` is what the sheet holds outside the slot that is saved to; both are put back each time.
fn cut_everywhere<C: Core>(
    core: &C,
    sheet: &mut [u8],
    kept: &mut [u8],
    place: usize,
    month: &[SaveCase],
) -> Verdict {
    let case = &month[place];
    let next = &month[(place + 1) % month.len()];
    let stores = stores_of(case);
    let (start, end) = (place * SLOT, (place + 1) * SLOT);
    for allowance in (0..stores + 2).chain([usize::MAX]) {
        save_at(core, sheet, kept, place, case, allowance)?;
        kept[start..end].copy_from_slice(&sheet[start..end]);
        // No store uses no slot; any other save, whole or broken, uses one.
        let next_place = place + usize::from(allowance > 0);
        save_at(core, sheet, kept, next_place, next, usize::MAX)?;
        sheet[start..end + SLOT].fill(BLANK);
        kept[start..end].fill(BLANK);
    }
    Ok(2 * (stores as u64 + 3))
}

/// Sequences of saves, refused ones among them, each cut anywhere, on sheets of all sizes; after
/// every save the answer and the whole list are held to the paper.
pub fn sequences<C: Core>(core: &C, seed: u64, count: usize) -> Verdict {
    in_parts(count, |part| {
        let mut random = Random::new(seed, part as u64);
        let slots = random.below(20);
        let mut sheet = vec![BLANK; slots * SLOT];
        let mut records = Vec::new();
        let mut used = 0;
        let saves = slots + slots / 2 + 2;
        for _ in 0..saves {
            let case = generate::save_case(&mut random);
            let allowance = generate::allowance(&mut random);
            let stores = stores_of(&case);
            let expected = match record_of(&case) {
                Err(fault) => Err(fault),
                Ok(_) if used == slots => Err(Fault::Full),
                Ok(record) => {
                    used += usize::from(allowance > 0);
                    records.extend((allowance >= stores).then_some(record));
                    Ok(allowance.min(stores))
                }
            };
            let answer = core.save(&mut sheet, &case.entry(), allowance);
            let asked = || format!("saving {:?} with {allowance} stores", case.entry());
            same(answer, expected, asked)?;
            same(list(core, &sheet), records.clone(), || {
                format!("the list after {}", asked())
            })?;
        }
        let mut line = [0; LINE];
        let bytes = core.last_line(&sheet, &mut line).unwrap_or(0).min(LINE);
        let expected = format!("records {}\n", records.len());
        same(&line[..bytes], expected.as_bytes(), || {
            "the last line of the listing".to_string()
        })?;
        Ok(saves as u64)
    })
}
