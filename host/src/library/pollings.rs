//! A round that the recorder runs itself, our request 16.

use super::{LentRow, Library};
use crate::calls::{Core, Pollings};
use crate::types::pollings::{Begun, Drew, Pace, Polling, Settled};
use crate::types::Row;
use std::mem::{align_of, offset_of, size_of};

const _: () = {
    assert!(size_of::<Pace>() == 36 && align_of::<Pace>() == 4);
    assert!(size_of::<Polling>() == 752 && align_of::<Polling>() == 8);
    assert!(offset_of!(Polling, lines) == 728 && offset_of!(Polling, passed) == 744);
    assert!(offset_of!(Polling, at) == 748 && offset_of!(Polling, tried) == 750);
    assert!(size_of::<Begun>() == 760);
    assert!(size_of::<Drew>() == 16 && offset_of!(Drew, over) == 8);
    assert!(size_of::<Settled>() == 16 && offset_of!(Settled, reply) == 8);
};

#[cfg(test)]
layout_of! {
    "sisal_pace": Pace { low, still, delay, least, most, gap, wait, longest, tries }
    "sisal_polling": Polling { round, lines, passed, at, tried, listening }
    "sisal_begun": Begun { polling, number }
    "sisal_drew": Drew { count, over, number }
    "sisal_settled": Settled { taken, reply, answered, over, number }
}

extern "C" {
    fn sisal_polling_begin(rows: *const LentRow, row_count: usize, minute: u32) -> Begun;
    fn sisal_polling_draw(
        polling: *mut Polling,
        pace: Pace,
        out: *mut u8,
        out_bytes: usize,
    ) -> Drew;
    fn sisal_polling_hear(
        polling: *mut Polling,
        pace: Pace,
        minute: u32,
        samples: *const u8,
        sample_bytes: usize,
    ) -> Settled;
}

/// Begins a round from rows as they are lent.
fn begin(rows: &[LentRow], minute: u32) -> Begun {
    // SAFETY: the library reads rows of the slice alone.
    unsafe { sisal_polling_begin(rows.as_ptr(), rows.len(), minute) }
}

impl Pollings for Library {
    fn polling_begin(&self, rows: &[Row], minute: u32) -> Begun {
        let rows: Vec<LentRow> = rows.iter().map(|row| self.row(row)).collect();
        begin(&rows, minute)
    }

    #[inline]
    fn polling_draw(&self, polling: &mut Polling, pace: &Pace, out: &mut [u8]) -> Drew {
        // SAFETY: the library writes the state and bytes of the output alone, which are lent to nobody
        // else.
        unsafe { sisal_polling_draw(polling, *pace, out.as_mut_ptr(), out.len()) }
    }

    #[inline]
    fn polling_hear(
        &self,
        polling: &mut Polling,
        pace: &Pace,
        minute: u32,
        samples: &[u8],
    ) -> Settled {
        // SAFETY: the library reads the bytes of the slice alone, and writes the state, which is lent
        // to nobody else.
        unsafe { sisal_polling_hear(polling, *pace, minute, samples.as_ptr(), samples.len()) }
    }
}

#[cfg(test)]
mod tests {
    use super::*;
    use crate::random::{Random, SEED};
    use crate::reading::pollings;

    mod vectors {
        crate::vectors::polling_tests_on!(crate::library::Library);
    }

    /// Rows of any bytes: what is in use is so by any number but 0, and of a row in use nothing but
    /// address and settings counts.
    #[test]
    fn rounds_begun_from_rows_of_any_bytes() {
        let mut random = Random::new(SEED, 0);
        for _ in 0..2_000 {
            let count = random.below(36);
            let used = random.below(count + 1);
            let row = |n: usize| LentRow {
                minute: random.next() as u32,
                address: (300 * n + random.below(300)) as u16,
                settings: random.byte(),
                used: if n < used { random.byte().max(1) } else { 0 },
                kind: random.byte(),
                fault: random.byte(),
                heard: random.next() as u32,
                gauge: random.byte(),
                ..LentRow::default()
            };
            let rows: Vec<LentRow> = (0..count).map(row).collect();
            let says: Vec<Row> = rows.iter().map(|row| Library.says(row)).collect();
            let minute = random.next() as u32;
            assert_eq!(begin(&rows, minute), pollings::begin(&says, minute));
        }
    }
}
