//! Messages drawn, right but for one mistake.

use sisalcove_host::calls::{Drawings, Lines};
use sisalcove_host::reading::IndependentReading;
use sisalcove_host::types::drawings::Drawing;
use sisalcove_host::types::lines::{LinesTold, PulseTimes, SoFar};
use sisalcove_host::{Answer, Fault};

/// The mistakes.
#[derive(Clone, Copy, Debug, PartialEq, Eq)]
pub enum Misdrawn {
    MarkAndSpaceExchanged,
    BitsFromTheLowest,
    BatchBeginsABit,
    IdleFirst,
    NoIdleAfterTheLast,
    PulseOneLonger,
    LastSampleDropped,
    WritesOneMore,
    FromCutToFourBytes,
    LengthsCutToTwoBytes,
    LongestLowRefused,
    LongestStillRefused,
    NoStillTaken,
    FormBeforeLengths,
    PadBitsIgnored,
    CountTakenAsByte,
    ByteOfNoBitsTaken,
    RefusalChanges,
    EndIsRefused,
}

use Misdrawn::*;

/// The damaged core.
pub struct Pen(pub Option<Misdrawn>);

const RIGHT: IndependentReading = IndependentReading;

impl Pen {
    fn is(&self, mistake: Misdrawn) -> bool {
        self.0 == Some(mistake)
    }

    /// Low, still and count of a drawing, as it takes them.
    fn numbers(&self, drawing: &Drawing) -> (usize, usize, usize) {
        let &Drawing {
            mut low,
            mut still,
            mut count,
            ..
        } = drawing;
        if self.is(LengthsCutToTwoBytes) {
            (low, still) = (low & 0xFFFF, still & 0xFFFF);
        }
        if self.is(CountTakenAsByte) {
            count &= 0xFF;
        }
        (low, still, count)
    }

    /// What it refuses.
    fn refusal(&self, drawing: &Drawing) -> Option<Fault> {
        let (low, still, count) = self.numbers(drawing);
        let message = drawing.message;
        let most_low = 1_000 - usize::from(self.is(LongestLowRefused));
        let most_still = 10_000 - usize::from(self.is(LongestStillRefused));
        let least_still = usize::from(!self.is(NoStillTaken));
        let lengths = (1..=most_low).contains(&low) && (least_still..=most_still).contains(&still);
        let bytes = message.len() == count.div_ceil(8)
            || (self.is(ByteOfNoBitsTaken) && count == 0 && message == [0]);
        let pads = count % 8 != 0 && message.last().is_some_and(|&b| b << (count % 8) != 0);
        let form = count <= 64 && bytes && (!pads || self.is(PadBitsIgnored));
        match (lengths, form) {
            (true, true) => None,
            (false, false) if self.is(FormBeforeLengths) => Some(Fault::Form),
            (false, _) => Some(Fault::Timing),
            (true, false) => Some(Fault::Form),
        }
    }

    /// Sample k of a drawing, if it has so many.
    fn sample(&self, drawing: &Drawing, k: usize) -> Option<u8> {
        let (mut low, mut still, count) = self.numbers(drawing);
        let message = drawing.message;
        if self.is(PulseOneLonger) && still > 1 {
            (low, still) = (low + 1, still - 1);
        }
        let size = low + still;
        let short = match self.0 {
            Some(NoIdleAfterTheLast) => still,
            Some(LastSampleDropped) => 1,
            _ => 0,
        };
        if k >= (count * size).saturating_sub(short) {
            return None;
        }
        let (bit, place) = (k / size, k % size);
        let is_low = match self.is(IdleFirst) {
            true => place >= still,
            false => place < low,
        };
        let shift = match self.is(BitsFromTheLowest) {
            true => bit % 8,
            false => 7 - bit % 8,
        };
        let mark = (message[bit / 8] >> shift & 1 == 1) != self.is(MarkAndSpaceExchanged);
        Some(match (is_low, mark) {
            (false, _) => 0,
            (true, true) => 1,
            (true, false) => 2,
        })
    }
}

impl Drawings for Pen {
    fn draw(&self, drawing: &Drawing, from: usize, out: &mut [u8]) -> Answer<usize> {
        if let Some(fault) = self.refusal(drawing) {
            if let Some(first) = out.first_mut().filter(|_| self.is(RefusalChanges)) {
                *first = 0;
            }
            return Err(fault);
        }
        let size = drawing.low.saturating_add(drawing.still).max(1);
        let from = match self.0 {
            Some(BatchBeginsABit) => from / size * size,
            Some(FromCutToFourBytes) => from & 0xFFFF_FFFF,
            _ => from,
        };
        let mut count = 0;
        for (n, byte) in out.iter_mut().enumerate() {
            let k = from.checked_add(n);
            match k.and_then(|k| self.sample(drawing, k)) {
                Some(sample) => *byte = sample,
                None => {
                    if self.is(WritesOneMore) {
                        *byte = 0;
                    }
                    break;
                }
            }
            count += 1;
        }
        if count == 0 && !out.is_empty() && self.is(EndIsRefused) {
            return Err(Fault::Short);
        }
        Ok(count)
    }
}

/// It hears as it should.
impl Lines for Pen {
    fn hear_lines(&self, so_far: SoFar, times: PulseTimes, samples: &[u8]) -> LinesTold {
        RIGHT.hear_lines(so_far, times, samples)
    }
}
