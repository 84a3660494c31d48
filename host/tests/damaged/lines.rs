//! The lines heard sample by sample, right but for one mistake.

use sisalcove_host::calls::Lines;
use sisalcove_host::types::lines::{LinesTold, PulseTimes, SoFar};

/// The mistakes.
#[derive(Clone, Copy, Debug, PartialEq, Eq)]
pub enum Misheard {
    MarkAndSpaceSwapped,
    BitsFromTheLowest,
    RunStopsAtThousand,
    RunComesRoundAgain,
    ClosesOneSampleLate,
    EndOfBadPulseNotIdle,
    ReportedTwice,
    ForeignKeptForTheNext,
    ForeignLikeBothLow,
    ForeignAfterDamageNotSeen,
    IdleForgottenAtEntry,
    PulseEndsWithTheBatch,
    OneSampleMoreTaken,
    TakenBesideBadTimes,
    StateMeantBesideBadTimes,
    TimesCutToTwoBytes,
    EqualLeastAndMostRefused,
    StateNotJudged,
    PadBitsNotJudged,
    StrangeStateKeptByEmptyBatch,
    SixtyFifthBitDropped,
    OneBothLowForgiven,
    ChangeOfLineEndsPulse,
    GapOnlyWhenJustReached,
    SpoiledWithoutBitsNotTold,
    BitsBesideSpoiled,
    LongestPulseRefused,
}

use Misheard::*;

/// The damaged core.
pub struct Listener(pub Option<Misheard>);

const BEGINNING: SoFar = SoFar {
    bits: 0,
    run: 0,
    count: 0,
    line: 0,
    fault: 0,
};

/// A spoiled message with this many idle samples since.
fn spoiled(fault: u8, run: u32) -> SoFar {
    SoFar {
        run,
        fault,
        ..BEGINNING
    }
}

impl Listener {
    fn is(&self, mistake: Misheard) -> bool {
        self.0 == Some(mistake)
    }

    fn refuses(&self, times: PulseTimes) -> bool {
        let mut times = times;
        if self.is(TimesCutToTwoBytes) {
            times.least &= 0xFFFF;
            times.most &= 0xFFFF;
            times.gap &= 0xFFFF;
        }
        let PulseTimes { least, most, gap } = times;
        let equal = self.is(EqualLeastAndMostRefused) && least == most;
        least < 1 || most > 1_000 || least > most || !(1..=10_000).contains(&gap) || equal
    }

    fn is_left_by_calls(&self, state: SoFar) -> bool {
        let SoFar {
            bits,
            run,
            count,
            line,
            fault,
        } = state;
        let pads = count < 64 && bits << count != 0;
        let bits_fit = count <= 64 && (!pads || self.is(PadBitsNotJudged));
        let between = fault == 0 && line == 0 && bits_fit && count > 0 && run > 0 && run < 10_000;
        let pulse = fault == 0 && (line == 1 || line == 2) && bits_fit && run > 0 && run < 1_002;
        let spoiled = fault == 21 || fault == 22;
        let spoiled = spoiled && bits == 0 && count == 0 && line == 0 && run < 10_000;
        state == BEGINNING || between || pulse || spoiled
    }

    /// The state after an idle sample that has ended a pulse.
    fn ended(&self, state: SoFar, times: PulseTimes) -> SoFar {
        let SoFar { run, line, .. } = state;
        let most = times.most - usize::from(self.is(LongestPulseRefused) && times.most > 1);
        let fits = times.least <= run as usize && run as usize <= most.max(times.least);
        if !fits {
            return spoiled(21, u32::from(!self.is(EndOfBadPulseNotIdle)));
        }
        if state.count == 64 {
            let dropped = SoFar {
                run: 1,
                line: 0,
                ..state
            };
            return if self.is(SixtyFifthBitDropped) {
                dropped
            } else {
                spoiled(21, 1)
            };
        }
        let mark = (line == 1) != self.is(MarkAndSpaceSwapped);
        let place = match self.is(BitsFromTheLowest) {
            true => state.count,
            false => 63 - state.count,
        };
        SoFar {
            bits: state.bits | u64::from(mark) << place,
            run: 1,
            count: state.count + 1,
            line: 0,
            fault: 0,
        }
    }

    /// The state after a sample that is not idle.
    fn low(&self, state: SoFar, sample: u8, times: PulseTimes) -> SoFar {
        let is_spoiled = state.fault != 0;
        let foreign = sample > 3 && !self.is(ForeignLikeBothLow);
        if foreign && !(is_spoiled && self.is(ForeignAfterDamageNotSeen)) {
            return spoiled(22, 0);
        }
        if is_spoiled {
            return spoiled(state.fault, 0);
        }
        if sample > 2 {
            let forgiven = self.is(OneBothLowForgiven) && state.line == 0 && sample == 3;
            return if forgiven { state } else { spoiled(21, 0) };
        }
        if state.line == 0 {
            return SoFar {
                run: 1,
                line: sample,
                ..state
            };
        }
        if state.line != sample {
            if self.is(ChangeOfLineEndsPulse) {
                let ended = self.ended(state, times);
                return match ended.fault {
                    0 => self.low(ended, sample, times),
                    _ => spoiled(21, 0),
                };
            }
            return spoiled(21, 0);
        }
        let run = match self.0 {
            Some(RunStopsAtThousand) => (state.run + 1).min(1_000),
            Some(RunComesRoundAgain) => (state.run + 1) & 0x3FF,
            _ => (state.run + 1).min(1_001),
        };
        SoFar { run, ..state }
    }

    /// The state after one sample, and whether it closed what was open.
    fn step(&self, state: SoFar, sample: u8, times: PulseTimes) -> (SoFar, bool) {
        if sample != 0 {
            return (self.low(state, sample, times), false);
        }
        if state == BEGINNING {
            return (state, false);
        }
        let state = match state.line {
            0 => SoFar {
                run: state.run + 1,
                ..state
            },
            _ => self.ended(state, times),
        };
        let run = state.run as usize;
        let closes = match self.0 {
            Some(ClosesOneSampleLate) => run > times.gap,
            Some(GapOnlyWhenJustReached) => run == times.gap,
            _ => run >= times.gap,
        };
        (state, closes)
    }

    fn entered(&self, so_far: SoFar) -> SoFar {
        let mut state = so_far;
        if !self.is_left_by_calls(so_far) && !self.is(StateNotJudged) {
            state = spoiled(21, 0);
        }
        if self.is(IdleForgottenAtEntry) && state.line == 0 && state.fault == 0 && state.run > 1 {
            state.run = 1;
        }
        state
    }
}

impl Lines for Listener {
    fn hear_lines(&self, so_far: SoFar, times: PulseTimes, samples: &[u8]) -> LinesTold {
        let told = |so_far, taken, number| LinesTold {
            so_far,
            taken,
            message: [0; 8],
            count: 0,
            number,
        };
        if self.refuses(times) {
            let taken = usize::from(self.is(TakenBesideBadTimes)) * samples.len();
            let state = match self.is(StateMeantBesideBadTimes) {
                true => self.entered(so_far),
                false => so_far,
            };
            return told(state, taken, 20);
        }
        if samples.is_empty() && self.is(StrangeStateKeptByEmptyBatch) {
            return told(so_far, 0, 0);
        }
        let mut state = self.entered(so_far);
        if self.is(StateNotJudged) && state.run > 20_000 {
            state.run = 20_000;
        }
        let mut had_bits = state.count > 0;
        for (n, &sample) in samples.iter().enumerate() {
            had_bits |= state.count > 0;
            let before = state;
            let closes;
            (state, closes) = self.step(state, sample, times);
            if !closes {
                continue;
            }
            let more = self.is(OneSampleMoreTaken) && n + 1 < samples.len();
            let taken = n + 1 + usize::from(more);
            if state.fault == 0 {
                return LinesTold {
                    message: state.bits.to_be_bytes(),
                    count: state.count as u8,
                    ..told(BEGINNING, taken, 0)
                };
            }
            if self.is(SpoiledWithoutBitsNotTold) && !had_bits {
                state = BEGINNING;
                continue;
            }
            let after = match self.0 {
                Some(ReportedTwice) => spoiled(state.fault, 0),
                Some(ForeignKeptForTheNext) if state.fault == 22 => spoiled(22, 0),
                _ => BEGINNING,
            };
            let bits = match self.is(BitsBesideSpoiled) && before.fault == 0 {
                true => before.bits,
                false => 0,
            };
            return LinesTold {
                message: bits.to_be_bytes(),
                ..told(after, taken, state.fault)
            };
        }
        if self.is(PulseEndsWithTheBatch) && state.line != 0 {
            state = self.ended(state, times);
        }
        told(state, samples.len(), 0)
    }
}
