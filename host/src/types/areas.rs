//! Transmitters that share an area, as request 14 of document 02 has them.

/// Most transmitters of a site, most areas of a plan.
pub const MOST_TRANSMITTERS: usize = 120;
pub const MOST_AREAS: usize = 8;
/// Most transmitters, feet and tenths of an ohm of an area.
pub const MOST_IN_AREA: usize = 30;
pub const MOST_FEET: u32 = 10_000;
pub const MOST_TENTHS: u32 = 500;

/// A transmitter of a site: the feet that it adds above, the tenths of an ohm below.
pub const fn transmitter(feet: u16, tenths: u16) -> u32 {
    (feet as u32) << 16 | tenths as u32
}

/// A plan: how many transmitters each area has, in cable order.
#[derive(Clone, Copy, Debug, PartialEq, Eq)]
pub struct AreaPlan {
    /// 0 after the last area.
    pub sizes: [u8; MOST_AREAS],
    pub areas: u8,
}

impl AreaPlan {
    /// The sizes of the areas that there are.
    pub fn sizes(&self) -> &[u8] {
        &self.sizes[..usize::from(self.areas).min(MOST_AREAS)]
    }
}
