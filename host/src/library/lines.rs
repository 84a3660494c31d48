//! Hearing the lines, request 01.

use super::Library;
use crate::calls::Lines;
use crate::types::lines::{LinesTold, PulseTimes, SoFar};
use std::mem::{align_of, size_of};

#[repr(C)]
struct Told {
    so_far: SoFar,
    taken: usize,
    message: [u8; 8],
    count: u8,
    number: u8,
}

const _: () = {
    assert!(size_of::<SoFar>() == 16 && align_of::<SoFar>() == 8);
    assert!(size_of::<Told>() == 40);
};

#[cfg(test)]
layout_of! {
    "sisal_lines_so_far": SoFar { bits, run, count, line, fault }
    "sisal_lines_told": Told { so_far, taken, message, count, number }
}

extern "C" {
    fn sisal_hear_lines(
        so_far: SoFar,
        least: usize,
        most: usize,
        gap: usize,
        samples: *const u8,
        sample_bytes: usize,
    ) -> Told;
}

impl Lines for Library {
    #[inline]
    fn hear_lines(&self, so_far: SoFar, times: PulseTimes, samples: &[u8]) -> LinesTold {
        let PulseTimes { least, most, gap } = times;
        // SAFETY: the library reads the bytes of the slice alone.
        let told =
            unsafe { sisal_hear_lines(so_far, least, most, gap, samples.as_ptr(), samples.len()) };
        LinesTold {
            so_far: told.so_far,
            taken: told.taken,
            message: told.message,
            count: told.count,
            number: told.number,
        }
    }
}
