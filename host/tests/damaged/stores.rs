//! Saves told as their stores, right but for one mistake.

use sisalcove_host::calls::Stores;
use sisalcove_host::reading::IndependentReading;
use sisalcove_host::types::stores::SaveStores;
use sisalcove_host::types::{Entry, BLANK, LARGEST_SHEET, SLOT};

/// The mistakes.
#[derive(Clone, Copy, Debug, PartialEq, Eq)]
pub enum Mismade {
    LowLengthByteLast,
    LengthFirst,
    OneStoreTooFew,
    FirstBlankSlot,
    FullBeforeForm,
    SettingsBeforeSheet,
    LargeSheetTold,
    SlotBesideRefusal,
    RowsNotCleared,
    PlaceInNextSlot,
    PlacesOfTheSheet,
    MinuteLowByteFirst,
    LengthCountsItself,
    SlotsCountedFromOne,
}

use Mismade::*;

/// The damaged core.
pub struct Teller(pub Option<Mismade>);

impl Teller {
    /// The sheet and the record as this core takes them.
    fn taken(&self, sheet: &[u8], entry: &Entry) -> SaveStores {
        match self.0 {
            Some(LargeSheetTold) if sheet.len() == LARGEST_SHEET + SLOT => {
                IndependentReading.save_stores(&sheet[SLOT..], entry)
            }
            Some(FirstBlankSlot) => {
                let mut slots = sheet.chunks_exact(SLOT);
                let first = slots.position(|slot| slot.iter().all(|&byte| byte == BLANK));
                let end = first.map_or(sheet.len(), |slot| slot * SLOT);
                // What lies behind the first blank slot is not looked at.
                let mut seen = sheet.to_vec();
                seen[end..].fill(BLANK);
                IndependentReading.save_stores(&seen, entry)
            }
            _ => IndependentReading.save_stores(sheet, entry),
        }
    }

    /// A refusal in another order.
    fn reordered(&self, sheet: &[u8], entry: &Entry, mut told: SaveStores) -> SaveStores {
        let last = sheet.chunks_exact(SLOT).last();
        let full = last.is_none_or(|slot| slot.iter().any(|&byte| byte != BLANK));
        match self.0 {
            Some(FullBeforeForm) if told.number == 14 && full => told.number = 13,
            Some(SettingsBeforeSheet) if told.number == 12 && entry.settings > 15 => {
                told.number = 10;
            }
            Some(SlotBesideRefusal) if told.number == 13 => {
                told.slot = (sheet.len() / SLOT) as u32;
            }
            _ => {}
        }
        told
    }
}

impl Stores for Teller {
    fn save_stores(&self, sheet: &[u8], entry: &Entry) -> SaveStores {
        let mut told = self.taken(sheet, entry);
        if told.number != 0 {
            return self.reordered(sheet, entry, told);
        }
        let n = usize::from(told.count);
        match self.0 {
            Some(LowLengthByteLast) => {
                told.places.swap(n - 2, n - 1);
                told.bytes.swap(n - 2, n - 1);
            }
            Some(LengthFirst) => {
                told.places[..n].rotate_right(2);
                told.bytes[..n].rotate_right(2);
            }
            Some(OneStoreTooFew) => {
                told.count -= 1;
                told.places[n - 1] = 0;
                told.bytes[n - 1] = 0;
            }
            Some(RowsNotCleared) if n < 19 => told.bytes[18] = BLANK,
            Some(PlaceInNextSlot) => told.places[n - 3] += SLOT as u8,
            Some(PlacesOfTheSheet) => {
                let start = (told.slot as usize * SLOT) as u8;
                let places = told.places[..n].iter_mut();
                places.for_each(|place| *place = place.wrapping_add(start));
            }
            Some(MinuteLowByteFirst) => told.bytes[2..6].reverse(),
            Some(LengthCountsItself) => told.bytes[n - 2] += 2,
            Some(SlotsCountedFromOne) => told.slot += 1,
            _ => {}
        }
        told
    }
}
