//! A save told as its stores, as request 19 has it.

use super::SLOT;

/// Most stores of a save: those of a reply of 64 bits.
pub const MOST_STORES: usize = 19;

/// The stores of a save, in order, or the number that refuses it with all else 0.
#[repr(C)]
#[derive(Clone, Copy, Debug, Default, PartialEq, Eq)]
pub struct SaveStores {
    /// The slot, counted from 0.
    pub slot: u32,
    /// The place of each store within the slot, and 0 behind them.
    pub places: [u8; MOST_STORES],
    /// The byte of each store, and 0 behind them.
    pub bytes: [u8; MOST_STORES],
    /// How many stores there are.
    pub count: u8,
    pub number: u8,
}

impl SaveStores {
    /// The stores, each as the byte of the sheet that it goes to and what it puts there.
    pub fn stores(&self) -> Vec<(usize, u8)> {
        let start = self.slot as usize * SLOT;
        let rows = self.places.iter().zip(&self.bytes);
        rows.map(|(&place, &byte)| (start + usize::from(place), byte))
            .take(usize::from(self.count))
            .collect()
    }
}
