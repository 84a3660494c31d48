//! A round that the recorder runs itself, our request 16.

use crate::types::pollings::{Begun, Drew, Left, Pace, Polling, Settled};
use crate::types::Row;

/// A core that runs rounds.
pub trait Pollings: Sync {
    /// Begins a round of the rows in use. Refusal: 38.
    fn polling_begin(&self, rows: &[Row], minute: u32) -> Begun;

    /// Draws delay and poll of the transmitter whose turn it is, from where the last call ended, as
    /// much as there is or fits. Refusal: 20, with the state as it was lent.
    fn polling_draw(&self, polling: &mut Polling, pace: &Pace, out: &mut [u8]) -> Drew;

    /// Hears samples up to the one that settles a try. Refusal: 20, with the state as it was lent;
    /// 21 and 22 tell how a try was settled.
    fn polling_hear(
        &self,
        polling: &mut Polling,
        pace: &Pace,
        minute: u32,
        samples: &[u8],
    ) -> Settled;

    /// Draws from a state that stays: what the call left of a copy stands beside its answer.
    fn drawn_of(&self, polling: &Polling, pace: &Pace, out: &mut [u8]) -> Left<Drew> {
        let mut polling = *polling;
        let told = self.polling_draw(&mut polling, pace, out);
        Left { polling, told }
    }

    /// Hears from a state that stays: what the call left of a copy stands beside its answer.
    fn heard_of(
        &self,
        polling: &Polling,
        pace: &Pace,
        minute: u32,
        samples: &[u8],
    ) -> Left<Settled> {
        let mut polling = *polling;
        let told = self.polling_hear(&mut polling, pace, minute, samples);
        Left { polling, told }
    }
}
