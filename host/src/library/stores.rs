//! A save told as its stores, request 19.

use super::Library;
use crate::calls::Stores;
use crate::types::stores::SaveStores;
use crate::types::Entry;
use std::mem::{align_of, offset_of, size_of};

const _: () = {
    assert!(size_of::<SaveStores>() == 44 && align_of::<SaveStores>() == 4);
    assert!(offset_of!(SaveStores, places) == 4 && offset_of!(SaveStores, bytes) == 23);
    assert!(offset_of!(SaveStores, count) == 42 && offset_of!(SaveStores, number) == 43);
};

#[cfg(test)]
layout_of! {
    "sisal_stores": SaveStores { slot, places, bytes, count, number }
}

extern "C" {
    fn sisal_save_stores(
        sheet: *const u8,
        sheet_bytes: usize,
        settings: u8,
        minute: u32,
        address: u16,
        count: usize,
        reply: *const u8,
        reply_bytes: usize,
    ) -> SaveStores;
}

impl Stores for Library {
    #[inline]
    fn save_stores(&self, sheet: &[u8], entry: &Entry) -> SaveStores {
        let (start, bytes) = (sheet.as_ptr(), sheet.len());
        let (reply, reply_bytes) = (entry.reply.as_ptr(), entry.reply.len());
        let (settings, minute, address) = (entry.settings, entry.minute, entry.address);
        // SAFETY: the library reads bytes of the sheet and of the reply alone, and writes none.
        unsafe {
            sisal_save_stores(
                start,
                bytes,
                settings,
                minute,
                address,
                entry.count,
                reply,
                reply_bytes,
            )
        }
    }
}
