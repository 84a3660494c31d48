//! Speaking on the lines, our request 15.

use super::{done, ffi, Library};
use crate::calls::Drawings;
use crate::types::drawings::Drawing;
use crate::types::Answer;

extern "C" {
    fn sisal_draw(
        low: usize,
        still: usize,
        count: usize,
        message: *const u8,
        message_bytes: usize,
        from: usize,
        out: *mut u8,
        out_bytes: usize,
    ) -> ffi::Done;
}

impl Drawings for Library {
    #[inline]
    fn draw(&self, drawing: &Drawing, from: usize, out: &mut [u8]) -> Answer<usize> {
        // SAFETY: the library reads the message and writes bytes of the output alone, which is lent
        // to nobody else.
        done(unsafe {
            sisal_draw(
                drawing.low,
                drawing.still,
                drawing.count,
                drawing.message.as_ptr(),
                drawing.message.len(),
                from,
                out.as_mut_ptr(),
                out.len(),
            )
        })
    }
}

#[cfg(test)]
mod tests {
    use super::*;
    use crate::generate;
    use crate::random::{Random, SEED};

    /// Beside a refusal the count is 0.
    #[test]
    fn a_refusal_answers_its_number_alone() {
        let mut random = Random::new(SEED, 0);
        let mut seen = [0u32; 21];
        for _ in 0..5_000 {
            let case = generate::drawing(&mut random);
            let mut out = [0; 40];
            // SAFETY: the message is lent for reading, the output to nobody else.
            let told = unsafe {
                let (message, bytes) = (case.message.as_ptr(), case.message.len());
                let (low, still, count) = (case.low, case.still, case.count);
                sisal_draw(low, still, count, message, bytes, 0, out.as_mut_ptr(), 40)
            };
            seen[usize::from(told.number)] += 1;
            assert!(told.number == 0 || told.count == 0, "{case:?}");
        }
        assert!(seen[14] > 100 && seen[20] > 100, "{seen:?}");
    }
}
