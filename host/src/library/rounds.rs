//! A whole round in one save, request 05.

use super::Library;
use crate::calls::Rounds;
use crate::types::rounds::{Polled, Round, Rounded};
use crate::types::summaries::Summary;
use std::mem::{align_of, offset_of, size_of};

#[repr(C)]
struct Told {
    closed: usize,
    stores: usize,
    number: u8,
}

#[repr(C)]
struct ToldPage {
    summary: Summary,
    closed: usize,
    stores: usize,
    number: u8,
}

const _: () = {
    assert!(size_of::<Polled>() == 24 && align_of::<Polled>() == 4);
    assert!(offset_of!(Polled, bytes) == 8 && offset_of!(Polled, address) == 12);
    assert!(offset_of!(Polled, settings) == 14 && offset_of!(Polled, reply) == 16);
    assert!(size_of::<Round>() == 728 && offset_of!(Round, count) == 720);
    assert!(size_of::<Told>() == 24);
    assert!(size_of::<ToldPage>() == 512 && offset_of!(ToldPage, closed) == 488);
};

#[cfg(test)]
layout_of! {
    "sisal_polled": Polled { minute, count, bytes, address, settings, unused, reply }
    "sisal_round": Round { replies, count }
    "sisal_rounded": Told { closed, stores, number }
    "sisal_rounded_page": ToldPage { summary, closed, stores, number }
}

extern "C" {
    fn sisal_save_round(sheet: *mut u8, sheet_bytes: usize, round: Round, allowance: usize)
        -> Told;
    fn sisal_summary_save_round(
        sheet: *mut u8,
        sheet_bytes: usize,
        summary: Summary,
        round: Round,
        allowance: usize,
    ) -> ToldPage;
}

impl Rounds for Library {
    #[inline]
    fn save_round(&self, sheet: &mut [u8], round: &Round, allowance: usize) -> Rounded {
        // SAFETY: the library writes bytes of the sheet alone, which is lent to nobody else.
        let told = unsafe { sisal_save_round(sheet.as_mut_ptr(), sheet.len(), *round, allowance) };
        Rounded {
            closed: told.closed,
            stores: told.stores,
            number: told.number,
        }
    }

    #[inline]
    fn summary_save_round(
        &self,
        sheet: &mut [u8],
        summary: &Summary,
        round: &Round,
        allowance: usize,
    ) -> (Summary, Rounded) {
        let (start, bytes) = (sheet.as_mut_ptr(), sheet.len());
        // SAFETY: the library writes bytes of the sheet alone, which is lent to nobody else.
        let told = unsafe { sisal_summary_save_round(start, bytes, *summary, *round, allowance) };
        let rounded = Rounded {
            closed: told.closed,
            stores: told.stores,
            number: told.number,
        };
        (told.summary, rounded)
    }
}
