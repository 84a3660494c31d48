//! The desk summary, request 03.

use super::{refused, Library};
use crate::calls::Summaries;
use crate::types::summaries::{Kept, Line, Summary};
use crate::types::{Answer, Entry};
use std::mem::{align_of, size_of};

#[repr(C)]
pub(super) struct Made {
    pub summary: Summary,
    pub number: u8,
}

#[repr(C)]
pub(super) struct KeptPage {
    pub summary: Summary,
    pub count: usize,
    pub number: u8,
}

const _: () = {
    assert!(size_of::<Line>() == 16 && align_of::<Line>() == 4);
    assert!(size_of::<Summary>() == 488 && align_of::<Summary>() == 4);
    assert!(size_of::<Made>() == 492);
    assert!(size_of::<KeptPage>() == 504);
};

#[cfg(test)]
layout_of! {
    "sisal_line": Line { address, settings, lowest, highest, good, faulty }
    "sisal_summary": Summary { count, others, lines }
    "sisal_made": Made { summary, number }
    "sisal_kept": KeptPage { summary, count, number }
}

extern "C" {
    pub(super) fn sisal_summary_of(sheet: *const u8, sheet_bytes: usize) -> Made;
    pub(super) fn sisal_summary_save(
        sheet: *mut u8,
        sheet_bytes: usize,
        summary: Summary,
        settings: u8,
        minute: u32,
        address: u16,
        count: usize,
        reply: *const u8,
        reply_bytes: usize,
        allowance: usize,
    ) -> KeptPage;
}

impl Summaries for Library {
    #[inline]
    fn summary_of(&self, sheet: &[u8]) -> Answer<Summary> {
        // SAFETY: the library reads the bytes of the slice alone.
        let made = unsafe { sisal_summary_of(sheet.as_ptr(), sheet.len()) };
        refused(made.number).map(|()| made.summary)
    }

    #[inline]
    fn summary_save(
        &self,
        sheet: &mut [u8],
        summary: &Summary,
        entry: &Entry,
        allowance: usize,
    ) -> Kept {
        // SAFETY: the library reads the reply and writes bytes of the sheet alone, which is lent to
        // nobody else.
        let kept = unsafe {
            sisal_summary_save(
                sheet.as_mut_ptr(),
                sheet.len(),
                *summary,
                entry.settings,
                entry.minute,
                entry.address,
                entry.count,
                entry.reply.as_ptr(),
                entry.reply.len(),
                allowance,
            )
        };
        Kept {
            summary: kept.summary,
            answer: refused(kept.number).map(|()| kept.count),
        }
    }
}

#[cfg(test)]
mod tests {
    use super::*;
    use crate::generate;
    use crate::random::{Random, SEED};
    use crate::types::{BLANK, SLOT};

    /// Beside a refusal a summary worked out is blank, and no store is counted.
    #[test]
    fn what_stands_beside_a_refusal() {
        let sheet = [BLANK; SLOT + 1];
        // SAFETY: the bytes of a slice are lent for reading.
        let made = unsafe { sisal_summary_of(sheet.as_ptr(), sheet.len()) };
        assert_eq!((made.number, made.summary), (12, Summary::default()));
        let mut random = Random::new(SEED, 0);
        let mut seen = [0u32; 38];
        for _ in 0..5_000 {
            let pairs = generate::pairs(&mut random);
            let page = generate::handed_in(&mut random, &pairs);
            let case = generate::pair_save(&mut random, &pairs);
            let entry = case.entry();
            let odd = usize::from(random.one_in(16));
            let mut sheet = vec![BLANK; random.below(2) * SLOT + odd];
            // SAFETY: the sheet is lent to nobody else, the reply for reading.
            let kept = unsafe {
                sisal_summary_save(
                    sheet.as_mut_ptr(),
                    sheet.len(),
                    page,
                    entry.settings,
                    entry.minute,
                    entry.address,
                    entry.count,
                    entry.reply.as_ptr(),
                    entry.reply.len(),
                    usize::MAX,
                )
            };
            seen[usize::from(kept.number)] += 1;
            if kept.number != 0 {
                assert_eq!((kept.count, kept.summary), (0, page), "{}", kept.number);
            }
        }
        for number in [12, 13, 24, 37] {
            assert!(seen[number] > 10, "{number}: {seen:?}");
        }
    }
}
