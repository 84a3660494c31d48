//! Answers as a core itself gives them.

use super::Core;

/// The calls whose answer tells more than a number, with the answer left as the core gives it: a C
/// struct of the library, a type of this package of the reading. The benchmarks time these, so that
/// neither side is charged for turning its answer into the other's types.
pub trait Bare: Core {
    type Poll;
    type Reply;
    type Slot;
    type Standing;

    fn bare_read_poll(&self, poll: &[u8]) -> Self::Poll;

    fn bare_read_reply(
        &self,
        settings: u8,
        address: u16,
        count: usize,
        reply: &[u8],
    ) -> Self::Reply;

    /// By the second reader, where a core has one.
    fn bare_read_reply_by_pairs(
        &self,
        settings: u8,
        address: u16,
        count: usize,
        reply: &[u8],
    ) -> Self::Reply;

    fn bare_look(&self, sheet: &[u8], slot: usize) -> Self::Slot;

    fn bare_look_up(&self, rows: &[Self::Row], address: u16) -> Self::Standing;
}
