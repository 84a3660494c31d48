//! Enraf item records, request 13.

use super::{done, ffi, refused, Library};
use crate::calls::Items;
use crate::types::items::{Item, ItemAsked, MOST_DATA};
use crate::types::Answer;
use std::mem::{align_of, size_of};

#[repr(C)]
struct Told {
    data: [u8; MOST_DATA],
    error: u16,
    ciu: u8,
    gauge: u8,
    first: u8,
    second: u8,
    kind: u8,
    length: u8,
    number: u8,
}

const _: () = assert!(size_of::<Told>() == 26 && align_of::<Told>() == 2);

#[cfg(test)]
layout_of! {
    "sisal_item": Told { data, error, ciu, gauge, first, second, kind, length, number }
}

extern "C" {
    fn sisal_read_item(record: *const u8, record_bytes: usize) -> Told;
    fn sisal_write_item(
        ciu: u16,
        gauge: u16,
        first: u8,
        second: u8,
        kind: u8,
        error: u16,
        data: *const u8,
        data_bytes: usize,
        out: *mut u8,
        out_bytes: usize,
    ) -> ffi::Done;
}

impl Told {
    fn item(&self) -> Item {
        Item {
            ciu: self.ciu,
            gauge: self.gauge,
            letters: [self.first, self.second],
            kind: self.kind,
            error: self.error,
            data: self.data,
            length: self.length,
        }
    }
}

impl Items for Library {
    #[inline]
    fn read_item(&self, record: &[u8]) -> Answer<Item> {
        // SAFETY: the library reads the bytes of the slice alone.
        let told = unsafe { sisal_read_item(record.as_ptr(), record.len()) };
        refused(told.number).map(|()| told.item())
    }

    #[inline]
    fn write_item(&self, item: &ItemAsked, out: &mut [u8]) -> Answer<usize> {
        let [first, second] = item.letters;
        // SAFETY: the library reads the data and writes bytes of the output alone, which is lent to
        // nobody else.
        done(unsafe {
            sisal_write_item(
                item.ciu,
                item.gauge,
                first,
                second,
                item.kind,
                item.error,
                item.data.as_ptr(),
                item.data.len(),
                out.as_mut_ptr(),
                out.len(),
            )
        })
    }
}

#[cfg(test)]
mod tests {
    use super::*;
    use crate::generate;
    use crate::random::{Random, SEED};

    /// Beside a refusal all else is 0.
    #[test]
    fn a_refusal_answers_its_number_alone() {
        let nothing = Item {
            ciu: 0,
            gauge: 0,
            letters: [0; 2],
            kind: 0,
            error: 0,
            data: [0; MOST_DATA],
            length: 0,
        };
        let mut random = Random::new(SEED, 0);
        let mut seen = [0u32; 34];
        for _ in 0..5_000 {
            let record = generate::record(&mut random);
            // SAFETY: the bytes of a slice are lent for reading.
            let told = unsafe { sisal_read_item(record.as_ptr(), record.len()) };
            seen[usize::from(told.number)] += 1;
            if told.number != 0 {
                assert_eq!(told.item(), nothing, "{}: {record:02x?}", told.number);
            }
            let case = generate::item_asked(&mut random);
            let ([first, second], mut out) = (case.letters, [0; 12]);
            // SAFETY: the data are lent for reading, the output to nobody else.
            let wrote = unsafe {
                let (data, bytes) = (case.data.as_ptr(), case.data.len());
                let (ciu, gauge, kind, error) = (case.ciu, case.gauge, case.kind, case.error);
                let out = out.as_mut_ptr();
                sisal_write_item(ciu, gauge, first, second, kind, error, data, bytes, out, 12)
            };
            seen[usize::from(wrote.number)] += 1;
            assert!(wrote.number == 0 || wrote.count == 0, "{case:?}");
        }
        assert!(seen[29..].iter().all(|&times| times > 100), "{seen:?}");
    }
}
