//! A message to be drawn on the lines, as our request 15 has it.

/// The bits of a message, and the samples of each: its line low for `low`, then idle for `still`.
#[derive(Clone, Copy, Debug, PartialEq, Eq)]
pub struct Drawing<'a> {
    pub low: usize,
    pub still: usize,
    /// How many bits.
    pub count: usize,
    /// Their bytes, bit 1 the highest of the first.
    pub message: &'a [u8],
}
