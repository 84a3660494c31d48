//! Rounds run sample by sample, right but for one mistake.

use super::lines::Listener;
use sisalcove_host::calls::{Lines, Pollings};
use sisalcove_host::reading::frame;
use sisalcove_host::types::lines::SoFar;
use sisalcove_host::types::pollings::{Begun, Drew, Pace, Polling, Settled};
use sisalcove_host::types::rounds::Polled;
use sisalcove_host::{Poll, Row};

/// The mistakes.
#[derive(Clone, Copy, Debug, PartialEq, Eq)]
pub enum Mispolled {
    // begun
    SettingsNotTaken,
    OrderNotAsked,
    RoundBesideRefusal,
    FreeRowTaken,
    LastOfThirtyLeftOut,
    ThirtyFirstAsked,
    MinuteLeftOut,
    // drawn
    FirstAddressForAll,
    NoDelayBeforeAgain,
    RaiseInPoll,
    PollOneSampleShort,
    BatchBeginsThePoll,
    DrawsWhileListening,
    OneByteMoreWritten,
    EndLeftDrawing,
    LargeAddressPolled,
    // heard
    OwnPollHeard,
    SilentOneLate,
    SilentOneEarly,
    FirstLowAtWaitIsLate,
    GivenUpOneLate,
    GivenUpBeforeClose,
    GivenUpIsSilence,
    GivenUpIsSpoiled,
    SpoiledIsAtRest,
    RestTakenToo,
    // settled
    FaultyAskedAgain,
    SpoiledNotAskedAgain,
    SilenceNotAskedAgain,
    OneTryMore,
    OneTryLess,
    TriedKeptForTheNext,
    LastOnlyWhenJustReached,
    LinesKept,
    MinuteOfTheBeginning,
    MinuteSetWhenAskedAgain,
    OldBitsLeft,
    EightBytesAlways,
    SettingsCleared,
    UnusedCleared,
    OverToldLate,
    NextReplyTold,
    NumberOnlyWhenAnswered,
    // patterns
    OverBeforeTiming,
    StateMeantBesideTiming,
    OverStateTidied,
    PassedComesRound,
    ListeningOnlyByOne,
    LinesKeptWhileDrawing,
    StrangeLinesKept,
    BeyondThePollIsDrawing,
    // paces
    NoDelayRefused,
    LongestDelayRefused,
    TenTriesTaken,
    TriesCutToByte,
    WaitAboveLongestTaken,
    WaitAtLongestRefused,
    LowOutsidePulseRefused,
    StillAtGapRefused,
    GapAboveLongestRefused,
    TenMillionRefused,
    NumbersCutToTwoBytes,
}

use Mispolled::*;

/// The damaged core.
pub struct Poller(pub Option<Mispolled>);

const BEGINNING: SoFar = SoFar {
    bits: 0,
    run: 0,
    count: 0,
    line: 0,
    fault: 0,
};

impl Poller {
    fn is(&self, mistake: Mispolled) -> bool {
        self.0 == Some(mistake)
    }

    fn refuses(&self, pace: &Pace) -> bool {
        let mut pace = *pace;
        if self.is(NumbersCutToTwoBytes) {
            for number in [
                &mut pace.low,
                &mut pace.still,
                &mut pace.least,
                &mut pace.most,
                &mut pace.gap,
            ] {
                *number &= 0xFFFF;
            }
        }
        if self.is(TriesCutToByte) {
            pace.tries &= 0xFF;
        }
        let least_delay = u32::from(self.is(NoDelayRefused));
        let most_delay = 1_000_000 - u32::from(self.is(LongestDelayRefused));
        let most_tries = 9 + u32::from(self.is(TenTriesTaken));
        let most_longest = 10_000_000 - u32::from(self.is(TenMillionRefused));
        let out = |n: u32, least: u32, most: u32| n < least || n > most;
        out(pace.low, 1, 1_000)
            || out(pace.still, 1, 10_000)
            || out(pace.delay, least_delay, most_delay)
            || out(pace.least, 1, 1_000)
            || out(pace.most, 1, 1_000)
            || pace.least > pace.most
            || out(pace.gap, 1, 10_000)
            || out(pace.wait, 1, 1_000_000)
            || out(pace.longest, 1, most_longest)
            || (pace.wait > pace.longest && !self.is(WaitAboveLongestTaken))
            || (pace.wait == pace.longest && self.is(WaitAtLongestRefused))
            || out(pace.tries, 1, most_tries)
            || (self.is(LowOutsidePulseRefused) && out(pace.low, pace.least, pace.most))
            || (self.is(StillAtGapRefused) && pace.still >= pace.gap)
            || (self.is(GapAboveLongestRefused) && pace.gap > pace.longest)
    }

    fn is_over(polling: &Polling) -> bool {
        polling.round.count > 30 || polling.at as usize >= polling.round.count
    }

    /// The address whose poll is drawn; none where it has no poll.
    fn address(&self, polling: &Polling) -> Option<u16> {
        let place = match self.is(FirstAddressForAll) {
            true => 0,
            false => usize::from(polling.at),
        };
        match polling.round.replies[place].address {
            address @ 1_000.. if self.is(LargeAddressPolled) => Some(address % 1_000),
            1_000.. => None,
            address => Some(address),
        }
    }

    fn delay(&self, polling: &Polling, pace: &Pace) -> u32 {
        match self.is(NoDelayBeforeAgain) && polling.tried > 0 {
            true => 0,
            false => pace.delay,
        }
    }

    /// How many samples delay and poll have.
    fn whole(&self, polling: &Polling, pace: &Pace) -> u32 {
        let poll = match self.address(polling) {
            Some(_) => 16 * (pace.low + pace.still) - u32::from(self.is(PollOneSampleShort)),
            None => 0,
        };
        self.delay(polling, pace) + poll
    }

    /// One of them.
    fn sample(&self, polling: &Polling, pace: &Pace, n: u32) -> u8 {
        let (delay, size) = (self.delay(polling, pace), pace.low + pace.still);
        if n < delay || (n - delay) % size >= pace.low {
            return 0;
        }
        let poll = Poll {
            address: self.address(polling).unwrap_or(0),
            raise: self.is(RaiseInPoll),
            reset: false,
        };
        let mut bytes = [0; 2];
        assert_eq!(frame::write_poll(&poll, &mut bytes), Ok(2));
        let bit = (n - delay) / size;
        match u16::from_be_bytes(bytes) << bit >> 15 {
            1 => 1,
            _ => 2,
        }
    }

    fn meant(&self, polling: &Polling, pace: &Pace) -> Polling {
        let mut state = *polling;
        let listens = match self.is(ListeningOnlyByOne) {
            true => state.listening == 1,
            false => state.listening != 0,
        };
        state.listening = u8::from(listens);
        if listens {
            if !self.is(StrangeLinesKept) {
                let told = Listener(None).hear_lines(state.lines, pace.times(), &[]);
                state.lines = told.so_far;
            }
            return state;
        }
        if !self.is(LinesKeptWhileDrawing) {
            state.lines = BEGINNING;
        }
        let whole = self.whole(polling, pace);
        let drawn = match self.is(BeyondThePollIsDrawing) {
            true => state.passed == whole,
            false => state.passed >= whole,
        };
        if drawn {
            (state.listening, state.passed) = (1, 0);
        }
        state
    }

    /// What a call answers at once: the state, whether it is over, and 20 or 0.
    fn at_once(&self, polling: &Polling, pace: &Pace) -> Option<(Polling, u8, u8)> {
        let over = Self::is_over(polling);
        let tidied = Polling {
            listening: 0,
            passed: 0,
            lines: BEGINNING,
            ..*polling
        };
        if over && self.is(OverBeforeTiming) {
            return Some((*polling, 1, 0));
        }
        if self.refuses(pace) {
            let state = match self.is(StateMeantBesideTiming) {
                true => tidied,
                false => *polling,
            };
            return Some((state, 0, 20));
        }
        let state = match self.is(OverStateTidied) {
            true => tidied,
            false => *polling,
        };
        over.then_some((state, 1, 0))
    }

    /// How a sample settles a try: the bits of a message, or none and a number.
    fn outcome(&self, before: &Polling, after: &mut Polling, pace: &Pace, sample: u8) -> Outcome {
        let times = pace.times();
        let told = Listener(None).hear_lines(before.lines, times, &[sample]);
        after.lines = told.so_far;
        after.passed = match self.is(PassedComesRound) {
            true => before.passed.wrapping_add(1),
            false => before.passed.saturating_add(1),
        };
        let late = u32::from(self.is(GivenUpOneLate));
        let given_up = after.passed >= pace.longest + late;
        let foreign = told.so_far.fault == 22 && !self.is(GivenUpIsSpoiled);
        let by = match (self.is(GivenUpIsSilence), foreign) {
            (true, _) => 0,
            (_, true) => 22,
            _ => 21,
        };
        if given_up && self.is(GivenUpBeforeClose) && before.lines != BEGINNING {
            return Some((0, [0; 8], by));
        }
        if told.count > 0 || told.number != 0 {
            return Some((told.count, told.message, told.number));
        }
        let rests = match self.0 {
            Some(FirstLowAtWaitIsLate) => before.lines == BEGINNING,
            Some(SpoiledIsAtRest) => told.so_far.count == 0 && told.so_far.line == 0,
            _ => told.so_far == BEGINNING,
        };
        let wait = match self.0 {
            Some(SilentOneLate) => pace.wait + 1,
            Some(SilentOneEarly) => pace.wait - u32::from(pace.wait > 1),
            _ => pace.wait,
        };
        if rests && after.passed >= wait {
            return Some((0, [0; 8], 0));
        }
        given_up.then_some((0, [0; 8], by))
    }

    /// Whether a try that came to this is the transmitter's last.
    fn is_last(&self, polling: &Polling, pace: &Pace, count: u8, number: u8) -> bool {
        let tries = match self.0 {
            Some(OneTryMore) => pace.tries + 1,
            Some(OneTryLess) => pace.tries.max(2) - 1,
            _ => pace.tries,
        };
        let tried = u32::from(polling.tried) + 1;
        let enough = match self.is(LastOnlyWhenJustReached) {
            true => tried == tries,
            false => tried >= tries,
        };
        match (count, number) {
            (0, 0) => enough || self.is(SilenceNotAskedAgain),
            (0, _) => enough || self.is(SpoiledNotAskedAgain),
            (40 | 56, _) => true,
            _ => enough || !self.is(FaultyAskedAgain),
        }
    }

    fn settle(
        &self,
        state: &mut Polling,
        pace: &Pace,
        minute: u32,
        (count, bytes, number): (u8, [u8; 8], u8),
    ) -> (u16, u8, u8, u8) {
        let at = state.at;
        let last = self.is_last(state, pace, count, number);
        if !self.is(LinesKept) {
            state.lines = BEGINNING;
        }
        (state.listening, state.passed) = (0, 0);
        let reply = &mut state.round.replies[usize::from(at)];
        let told = at + u16::from(self.is(NextReplyTold));
        if !last {
            if self.is(MinuteSetWhenAskedAgain) {
                reply.minute = minute;
            }
            state.tried = state.tried.saturating_add(1);
            let number = number * u8::from(!self.is(NumberOnlyWhenAnswered));
            return (told, 0, 0, number);
        }
        if !self.is(MinuteOfTheBeginning) {
            reply.minute = minute;
        }
        if count > 0 || !self.is(OldBitsLeft) {
            reply.count = u32::from(count);
            reply.bytes = u32::from(count.div_ceil(8));
            reply.reply = bytes;
        }
        if self.is(EightBytesAlways) {
            reply.bytes = 8;
        }
        if self.is(SettingsCleared) {
            reply.settings = 0;
        }
        if self.is(UnusedCleared) {
            reply.unused = 0;
        }
        state.at += 1;
        if !self.is(TriedKeptForTheNext) {
            state.tried = 0;
        }
        let over = Self::is_over(state) && !self.is(OverToldLate);
        (told, 1, u8::from(over), number)
    }
}

type Outcome = Option<(u8, [u8; 8], u8)>;

impl Pollings for Poller {
    fn polling_begin(&self, rows: &[Row], minute: u32) -> Begun {
        let mut begun = Begun::default();
        let asked = if self.is(ThirtyFirstAsked) { 31 } else { 30 };
        let (mut last, mut free) = (None, false);
        for row in rows.iter().take(asked) {
            free |= !row.in_use;
            let behind = row.in_use && (free || last.is_some_and(|last| last >= row.address));
            if behind && !self.is(OrderNotAsked) {
                begun.number = 38;
            }
            last = row.in_use.then_some(row.address).or(last);
        }
        if begun.number != 0 && !self.is(RoundBesideRefusal) {
            return begun;
        }
        let round = &mut begun.polling.round;
        let most = if self.is(LastOfThirtyLeftOut) { 29 } else { 30 };
        for row in rows.iter().take(most) {
            if row.in_use || (self.is(FreeRowTaken) && row.address != 0) {
                round.replies[round.count] = Polled {
                    minute: minute * u32::from(!self.is(MinuteLeftOut)),
                    address: row.address,
                    settings: row.settings * u8::from(!self.is(SettingsNotTaken)),
                    ..Polled::default()
                };
                round.count += 1;
            }
        }
        begun
    }

    fn polling_draw(&self, polling: &mut Polling, pace: &Pace, out: &mut [u8]) -> Drew {
        let mut told = Drew::default();
        if let Some((state, over, number)) = self.at_once(polling, pace) {
            (*polling, told.over, told.number) = (state, over, number);
            return told;
        }
        let mut state = self.meant(polling, pace);
        if state.listening == 0 || self.is(DrawsWhileListening) {
            let whole = self.whole(&state, pace);
            let from = match self.is(BatchBeginsThePoll) {
                true => 0,
                false => state.passed,
            };
            while told.count < out.len() && state.passed < whole {
                let n = (from + told.count as u32).min(whole);
                out[told.count] = self.sample(&state, pace, n);
                told.count += 1;
                state.passed += 1;
            }
            if self.is(OneByteMoreWritten) && told.count < out.len() {
                out[told.count] = 0;
            }
            if !self.is(EndLeftDrawing) {
                state = self.meant(&state, pace);
            }
        }
        *polling = state;
        told
    }

    fn polling_hear(
        &self,
        polling: &mut Polling,
        pace: &Pace,
        minute: u32,
        samples: &[u8],
    ) -> Settled {
        let mut told = Settled::default();
        if let Some((state, over, number)) = self.at_once(polling, pace) {
            (*polling, told.over, told.number) = (state, over, number);
            return told;
        }
        let mut state = self.meant(polling, pace);
        *polling = state;
        if state.listening == 0 && !self.is(OwnPollHeard) {
            return told;
        }
        for &sample in samples {
            let before = state;
            told.taken += 1;
            if let Some(outcome) = self.outcome(&before, &mut state, pace, sample) {
                let settled = self.settle(&mut state, pace, minute, outcome);
                (told.reply, told.answered, told.over, told.number) = settled;
                if self.is(RestTakenToo) {
                    told.taken = samples.len();
                }
                break;
            }
        }
        *polling = state;
        told
    }
}
