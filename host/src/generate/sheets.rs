//! Saves and sheets, honest and hostile.

use super::{
    address, damaged_reply, good_reply, minute, refused_address, refused_settings, wild_count,
    ReplyCase,
};
use crate::random::Random;
use crate::reading::sheet::save;
use crate::types::{Entry, BLANK, LARGEST_SHEET, SLOT};

/// One save to be asked for.
#[derive(Clone, Copy, Debug, PartialEq, Eq)]
pub struct SaveCase {
    pub minute: u32,
    pub reply: ReplyCase,
}

impl SaveCase {
    /// The save's entry.
    #[inline]
    pub fn entry(&self) -> Entry<'_> {
        Entry {
            settings: self.reply.settings,
            minute: self.minute,
            address: self.reply.address,
            count: self.reply.count,
            reply: self.reply.reply(),
        }
    }
}

/// A reply of good form with any count from 0 to 64, so that every length of a record occurs.
fn odd_reply(random: &mut Random) -> ReplyCase {
    let count = random.below(65);
    let length = count.div_ceil(8);
    let mut bytes = [0; 8];
    random.fill(&mut bytes[..length]);
    if count % 8 != 0 {
        bytes[length - 1] &= !(0xFF >> (count % 8));
    }
    ReplyCase::new(
        random.below(16) as u8,
        address(random),
        count,
        &bytes[..length],
    )
}

/// A save that passes or, now and then, one that is refused for itself.
pub fn save_case(random: &mut Random) -> SaveCase {
    let mut reply = match random.below(8) {
        0..=3 => {
            let settings = random.below(16) as u8;
            let address = address(random);
            good_reply(random, settings, address)
        }
        4 => damaged_reply(random),
        _ => odd_reply(random),
    };
    match random.below(64) {
        0 => reply.settings = refused_settings(random),
        1 => reply.address = refused_address(random),
        2 => reply.count = wild_count(random),
        _ => {}
    }
    SaveCase {
        minute: minute(random),
        reply,
    }
}

/// How many stores a save may make: none, all, more than all, or a cut.
pub fn allowance(random: &mut Random) -> usize {
    match random.below(8) {
        0..=3 => usize::MAX,
        4 => 19 + random.below(2),
        5 => random.below(3),
        _ => random.below(20),
    }
}

/// The saves of a month: 30 transmitters twice a day for 31 days. Most replies are good; some are
/// damaged and some have an odd count, as a noisy line would give them. All pass.
pub fn month(random: &mut Random) -> Vec<SaveCase> {
    let mut transmitters = Vec::new();
    for number in 0..30u16 {
        let settings = random.below(16) as u8;
        transmitters.push((settings, number * 34 % 1_000));
    }
    let mut saves = Vec::new();
    for half_day in 0..62 {
        for (place, &(settings, address)) in transmitters.iter().enumerate() {
            let mut reply = if random.one_in(6) {
                odd_reply(random)
            } else {
                good_reply(random, settings, address)
            };
            reply.settings = settings;
            reply.address = address;
            saves.push(SaveCase {
                minute: half_day * 720 + place as u32,
                reply,
            });
        }
    }
    saves
}

/// A slot that holds a record.
pub fn record_bytes(random: &mut Random) -> [u8; SLOT] {
    loop {
        let mut slot = [BLANK; SLOT];
        if save(&mut slot, &save_case(random).entry(), usize::MAX).is_ok() {
            return slot;
        }
    }
}

/// A slot that no recorder need have left.
pub fn hostile_slot(random: &mut Random) -> [u8; SLOT] {
    let mut slot = [BLANK; SLOT];
    match random.below(12) {
        // a hole
        0 | 1 => {}
        2 | 3 => slot = record_bytes(random),
        // a record with one byte changed, or a bit, or several bytes
        4 | 5 => {
            slot = record_bytes(random);
            slot[random.below(SLOT)] = random.byte();
        }
        6 => {
            slot = record_bytes(random);
            slot[random.below(SLOT)] ^= 1 << random.below(8);
        }
        7 => {
            slot = record_bytes(random);
            for _ in 0..2 + random.below(4) {
                slot[random.below(SLOT)] = random.byte();
            }
        }
        // a length or a count of its own
        8 => {
            slot = record_bytes(random);
            slot[1] = random.below(20) as u8;
            slot[10] = random.below(80) as u8;
        }
        // one byte alone
        9 => slot[random.below(SLOT)] = random.byte(),
        // the stores in another order than the paper's
        10 => {
            let record = record_bytes(random);
            let end = random.below(SLOT);
            slot[..end].copy_from_slice(&record[..end]);
        }
        _ => random.fill(&mut slot),
    }
    slot
}

/// A sheet of hostile slots; now and then the size is refused.
pub fn hostile_sheet(random: &mut Random) -> Vec<u8> {
    let slots = match random.below(64) {
        0 => LARGEST_SHEET / SLOT,
        1 => 0,
        2 => LARGEST_SHEET / SLOT + 1,
        _ => 1 + random.below(24),
    };
    let mut sheet = Vec::with_capacity(slots * SLOT);
    for _ in 0..slots {
        sheet.extend_from_slice(&hostile_slot(random));
    }
    // Most sheets end in blanks, or every save would find them full.
    let blanks = random.below(slots + 1) * SLOT;
    let used = sheet.len() - blanks;
    sheet[used..].fill(BLANK);
    if random.one_in(32) {
        sheet.truncate(sheet.len().saturating_sub(1 + random.below(SLOT - 1)));
    }
    sheet
}

#[cfg(test)]
mod tests {
    use super::*;
    use crate::reading::sheet::look;
    use crate::types::Slot;

    #[test]
    fn a_month_has_its_records_and_all_pass() {
        let mut random = Random::new(crate::random::SEED, 0);
        let month = month(&mut random);
        assert_eq!(month.len(), 1_860);
        let mut lengths = [false; 9];
        for case in &month {
            let mut slot = [BLANK; SLOT];
            assert!(save(&mut slot, &case.entry(), usize::MAX).is_ok());
            lengths[case.reply.reply().len()] = true;
        }
        assert_eq!(lengths, [true; 9]);
    }

    #[test]
    fn saves_into_hostile_sheets_have_every_outcome() {
        let mut random = Random::new(crate::random::SEED, 0);
        let mut seen = [0u32; 20];
        for _ in 0..10_000 {
            let mut sheet = hostile_sheet(&mut random);
            let answer = save(&mut sheet, &save_case(&mut random).entry(), usize::MAX);
            seen[answer.err().map_or(0, |fault| usize::from(fault.number()))] += 1;
        }
        for number in [0, 10, 11, 12, 13, 14] {
            assert!(seen[number] >= 50, "{number}: {seen:?}");
        }
    }

    #[test]
    fn hostile_slots_are_of_every_kind() {
        let mut random = Random::new(crate::random::SEED, 0);
        let mut kinds = [0u32; 4];
        for _ in 0..10_000 {
            let kind = match look(&hostile_slot(&mut random), 0) {
                Ok(Slot::Blank) | Err(_) => 0,
                Ok(Slot::Spoiled) => 1,
                Ok(Slot::Foreign) => 2,
                Ok(Slot::Record(_)) => 3,
            };
            kinds[kind] += 1;
        }
        assert!(kinds.iter().all(|&times| times > 500), "{kinds:?}");
    }
}
