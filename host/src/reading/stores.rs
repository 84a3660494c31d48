//! A save told as its stores: the record is laid out once, as a row of bytes, and each byte told
//! with its place.

use super::sheet::{end_of_use, judged};
use super::IndependentReading;
use crate::calls::Stores;
use crate::types::stores::SaveStores;
use crate::types::{Answer, Entry, Fault, SLOT};

impl Stores for IndependentReading {
    // Kept out of line, as calls of the archive are.
    #[inline(never)]
    fn save_stores(&self, sheet: &[u8], entry: &Entry) -> SaveStores {
        told(sheet, entry).unwrap_or_else(|fault| SaveStores {
            number: fault.number(),
            ..SaveStores::default()
        })
    }
}

/// Bytes ahead of the reply that the length counts.
const FIXED: usize = 9;

fn told(sheet: &[u8], entry: &Entry) -> Answer<SaveStores> {
    judged(sheet, entry)?;
    let start = end_of_use(sheet);
    if start == sheet.len() {
        return Err(Fault::Full);
    }
    let [m0, m1, m2, m3] = entry.minute.to_be_bytes();
    let [a0, a1] = entry.address.to_be_bytes();
    // The form has been judged: the count is at most 64 and the reply at most 8 bytes.
    let fixed = [1, entry.settings, m0, m1, m2, m3, a0, a1, entry.count as u8];
    let length = FIXED + entry.reply.len();
    let mut stores = SaveStores {
        slot: (start / SLOT) as u32,
        count: length as u8 + 2,
        ..SaveStores::default()
    };
    stores.bytes[..FIXED].copy_from_slice(&fixed);
    stores.bytes[FIXED..length].copy_from_slice(entry.reply);
    for (place, number) in stores.places[..length].iter_mut().zip(2..) {
        *place = number;
    }
    // The length last: its low byte at 1, then its high byte, 0, at 0.
    stores.places[length] = 1;
    stores.bytes[length] = length as u8;
    Ok(stores)
}
