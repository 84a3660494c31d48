//! The lines heard, as request 01 of document 02 has them.

/// Samples of a pulse at the least and at the most, and of the idle run that closes a message.
#[derive(Clone, Copy, Debug, PartialEq, Eq)]
pub struct PulseTimes {
    pub least: usize,
    pub most: usize,
    pub gap: usize,
}

/// What has been heard of a message that no gap has closed yet. All zeros is the beginning.
#[repr(C)]
#[derive(Clone, Copy, Debug, Default, PartialEq, Eq)]
pub struct SoFar {
    /// The bits, bit 1 highest.
    pub bits: u64,
    /// Samples of the run at the end.
    pub run: u32,
    /// How many bits.
    pub count: u16,
    /// The line that is low at the end: 0 none, 1 mark, 2 space.
    pub line: u8,
    /// 21 or 22 once the message is spoiled.
    pub fault: u8,
}

/// What a call that hears samples tells. A message is told by a count above 0, a refusal by its
/// number; where both are 0 nothing was closed.
#[derive(Clone, Copy, Debug, PartialEq, Eq)]
pub struct LinesTold {
    pub so_far: SoFar,
    /// Samples taken, up to the one that closed the message.
    pub taken: usize,
    /// The message's bits, bit 1 highest of the first byte, 0 after the count.
    pub message: [u8; 8],
    pub count: u8,
    pub number: u8,
}
