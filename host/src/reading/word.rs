//! A reply as a word, packed from the left: bit n of the line is bit 64 - n of the word.

use crate::types::{Answer, Fault};

/// The word with bit `n` of the line alone.
pub(super) const fn bit(n: u32) -> u64 {
    1 << (64 - n)
}

/// The word with the bits `first` to `last` of the line.
pub(super) const fn bits(first: u32, last: u32) -> u64 {
    (u64::MAX >> (first - 1)) & (u64::MAX << (64 - last))
}

/// Packs a reply of good form into a word. Refusal: 14.
#[inline]
pub(super) fn pack(count: usize, reply: &[u8]) -> Answer<u64> {
    let length = reply.len();
    if length != count.div_ceil(8) || length > 8 {
        return Err(Fault::Form);
    }
    let word = match (reply.first_chunk(), reply.last_chunk()) {
        // Two loads of four bytes; where they overlap they say the same.
        (Some(&first), Some(&last)) => {
            let last = u64::from(u32::from_be_bytes(last));
            u64::from(u32::from_be_bytes(first)) << 32 | last << (64 - 8 * length)
        }
        _ => {
            let byte = |word: u64, &byte: &u8| word << 8 | u64::from(byte);
            let word = reply.iter().fold(0, byte);
            word << 32 << (32 - 8 * length)
        }
    };
    if word & past(count) != 0 {
        return Err(Fault::Form);
    }
    Ok(word)
}

/// The bits of a word past the first `count`.
#[inline]
pub(super) fn past(count: usize) -> u64 {
    if count < 64 {
        u64::MAX >> count
    } else {
        0
    }
}
