//! Every comparison passes for two right cores, and finds each of its mistakes in a damaged one.

mod damaged;

use damaged::areas::{Fitter, Miswired};
use damaged::drawings::{Misdrawn, Pen};
use damaged::items::{Clerk, Mistold};
use damaged::joins::{Joiner, Misjoined};
use damaged::lines::{Listener, Misheard};
use damaged::pollings::{Mispolled, Poller};
use damaged::rounds::{Misrounded, Rounder};
use damaged::stores::{Mismade, Teller};
use damaged::summaries::{Desk, Miscounted};
use damaged::Damage::{self, *};
use damaged::Damaged;
use sisalcove_host::compare::{self, checks, Check, Plan};
use sisalcove_host::reading::IndependentReading;
use std::fmt::Debug;

const CUT_MONTH: &str = "month cut after every store, right";
const CUT_ANYWHERE: &str = "saves cut anywhere, right";
const POLLS: &str = "polls, all";
const LEVELS: &str = "levels, all of all settings";
const LEVEL_CODES: &str = "level codes, all of all modes";
const TEMPERATURES: &str = "temperatures, all of all settings";
const TEMPERATURE_CODES: &str = "temperature codes, all";
const ADDRESSES: &str = "addresses, all codes at all polls";
const COUNTS: &str = "counts and forms";
const REPLIES: &str = "replies, random and damaged";
const SIZES: &str = "sizes of sheets";
const HONEST: &str = "honest sheets";
const HOSTILE: &str = "hostile sheets";
const CHANGED: &str = "records with one byte changed";
const BOARDS: &str = "boards";

/// Each mistake with the comparisons that must find it.
const FOUND_BY: &[(Damage, &[&str])] = &[
    (UnusedBitOfPollRead, &[POLLS]),
    (RaiseAndResetSwapped, &[POLLS]),
    (PollWritesThreeBytes, &[POLLS]),
    (ShortBeforeAddress, &[POLLS]),
    (ChartEndByCode, &[LEVELS, LEVEL_CODES, REPLIES]),
    (RangeCalledCode, &[LEVEL_CODES, REPLIES]),
    (CodeBeforeFill, &[LEVEL_CODES, REPLIES]),
    (OneLevelWrong, &[LEVELS, LEVEL_CODES]),
    (ZeroWrittenNegative, &[TEMPERATURES]),
    (LowestTemperatureWrong, &[TEMPERATURES, TEMPERATURE_CODES]),
    (HundredOf1800Unread, &[TEMPERATURE_CODES, REPLIES]),
    (HundredBesideAboveRead, &[TEMPERATURE_CODES, REPLIES]),
    (DigitsBesideAboveRead, &[TEMPERATURE_CODES, REPLIES]),
    (DigitAboveNineInAddress, &[ADDRESSES]),
    (PadBitsIgnored, &[COUNTS, REPLIES]),
    (CountTakenAsByte, &[COUNTS, REPLIES]),
    (ParityBeforeAddress, &[REPLIES]),
    (AddressBeforeSettings, &[COUNTS]),
    (ReplyWritesOneMore, &[LEVELS, TEMPERATURES, REPLIES]),
    (AlarmsSwapped, &[LEVELS, REPLIES]),
    (LastUnreadableNamed, &[LEVELS, REPLIES]),
    (LargeSheetAccepted, &[SIZES, HOSTILE]),
    (SlotPastLastBlank, &[SIZES, HONEST, HOSTILE]),
    (
        RefusesEverySave,
        &[HONEST, HOSTILE, SIZES, CUT_MONTH, CUT_ANYWHERE],
    ),
    (
        SavesNothing,
        &[HONEST, HOSTILE, SIZES, CUT_MONTH, CUT_ANYWHERE],
    ),
    (
        FeignsAllButFirst,
        &[HONEST, HOSTILE, SIZES, CUT_MONTH, CUT_ANYWHERE],
    ),
    (InventedCount, &[HONEST, HOSTILE, CUT_MONTH, CUT_ANYWHERE]),
    (LengthFirst, &[HONEST, HOSTILE, CUT_MONTH, CUT_ANYWHERE]),
    (FullTooEarly, &[HONEST, SIZES, CUT_ANYWHERE]),
    (FirstBlankSlot, &[HOSTILE]),
    (LastByteIgnored, &[CHANGED, HOSTILE]),
    (VersionIgnored, &[CHANGED, HOSTILE]),
    (SpoiledCalledForeign, &[HONEST, HOSTILE, CHANGED]),
    (FaultyNotCounted, &[HONEST, HOSTILE, CUT_ANYWHERE]),
    (NoLastLine, &[HONEST, HOSTILE, SIZES]),
    (ReadingClearedByFault, &[BOARDS]),
    (FaultKeptByGoodReply, &[BOARDS]),
    (PlaceKeptBesideOtherFault, &[BOARDS]),
    (PlaceNotInRow, &[BOARDS]),
    (CountWraps, &[BOARDS]),
    (CountKeptByGoodReply, &[BOARDS]),
    (HeardKeptByFault, &[BOARDS]),
    (LatestMinuteIsLargest, &[BOARDS]),
    (RowPastThirtiethUsed, &[BOARDS]),
    (EnrolsBehindOthers, &[BOARDS]),
    (RemovalLeavesHole, &[BOARDS]),
    (FreedRowKept, &[BOARDS]),
    (SameAddressTwice, &[BOARDS]),
    (HoleBetweenRows, &[BOARDS]),
    (LookAsksNoOrder, &[BOARDS]),
    (SettingsBeforeOrder, &[BOARDS]),
    (RemovalKeepsAddress, &[BOARDS]),
    (UnknownBeforeForm, &[BOARDS]),
    (SettingsOfRowNotAsked, &[BOARDS]),
    (ProfileEndsStrict, &[BOARDS]),
    (ProfileOf1800Checked, &[BOARDS]),
    (ReadingClearedByProfile, &[BOARDS]),
    (ProfileOf1800Enrolled, &[BOARDS]),
    (TwiceBeforeProfile, &[BOARDS]),
    (RemovalKeepsGauge, &[BOARDS]),
    (GaugeToldAsItStands, &[BOARDS]),
    (RaiseToAnyRow, &[BOARDS]),
    (RaiseAndResetAtOnce, &[BOARDS]),
    (RaiseWrittenAsReset, &[BOARDS]),
    (ShortBeforeMark, &[BOARDS]),
];

/// The comparisons of some calls, held to account: they pass for two right cores, whichever side
/// they look at, each finds the mistakes named for it, and none is without a mistake to find.
struct Account<C, M: 'static> {
    checks: fn() -> Vec<Check<IndependentReading, C>>,
    /// The same with the sides exchanged.
    mirrored: fn() -> Vec<Check<C, IndependentReading>>,
    /// A core that is right but for this mistake, or right without one.
    core: fn(Option<M>) -> C,
    found_by: &'static [(M, &'static [&'static str])],
}

impl<C, M: Copy + Debug> Account<C, M> {
    fn settle(&self) {
        self.two_right_cores_agree();
        self.every_mistake_is_found_by_each_comparison_that_should();
        self.the_first_core_is_held_to_the_same();
        self.every_comparison_has_a_mistake_to_find();
    }

    fn two_right_cores_agree(&self) {
        for check in (self.checks)() {
            let right = (self.core)(None);
            match (check.run)(&IndependentReading, &right, &Plan::short()) {
                Ok(asked) => assert!(asked > 1_000, "{}: only {asked} asked", check.name),
                Err(difference) => panic!("{}: {difference}", check.name),
            }
        }
    }

    fn every_mistake_is_found_by_each_comparison_that_should(&self) {
        let mut missed = Vec::new();
        for &(mistake, found_by) in self.found_by {
            let wrong = (self.core)(Some(mistake));
            for check in (self.checks)() {
                let should = found_by.contains(&check.name);
                if should && (check.run)(&IndependentReading, &wrong, &Plan::short()).is_ok() {
                    missed.push((mistake, check.name));
                }
            }
        }
        assert!(missed.is_empty(), "{missed:#?}");
    }

    fn the_first_core_is_held_to_the_same(&self) {
        for &(mistake, found_by) in self.found_by {
            let wrong = (self.core)(Some(mistake));
            for check in (self.mirrored)() {
                let Some(which) = check.name.strip_suffix("left") else {
                    continue;
                };
                let expected = found_by.contains(&format!("{which}right").as_str());
                let verdict = (check.run)(&wrong, &IndependentReading, &Plan::short());
                let name = check.name;
                assert!(!expected || verdict.is_err(), "{mistake:?} by {name}");
            }
        }
    }

    fn every_comparison_has_a_mistake_to_find(&self) {
        let names: Vec<&str> = (self.checks)().iter().map(|check| check.name).collect();
        for name in &names {
            let name = name.replace(", left", ", right");
            let mut by = self.found_by.iter().map(|(_, by)| by);
            assert!(by.any(|by| by.contains(&name.as_str())), "{name}");
        }
        for (mistake, by) in self.found_by {
            assert!(by.iter().all(|name| names.contains(name)), "{mistake:?}");
        }
    }
}

#[test]
fn document_01() {
    Account {
        checks,
        mirrored: checks,
        core: |mistake| Damaged(mistake.unwrap_or(Nothing)),
        found_by: FOUND_BY,
    }
    .settle();
}

#[test]
fn lines() {
    use Misheard::*;
    const SHORT: &str = "lines, all short streams";
    const TIMES: &str = "lines, timing numbers";
    const STATES: &str = "lines, states of every kind";
    const STREAMS: &str = "lines, streams in batches";
    const DRAWN: &str = "lines, drawn then heard, right";
    Account {
        checks: compare::lines::checks,
        mirrored: compare::lines::checks,
        core: Listener,
        found_by: &[
            (MarkAndSpaceSwapped, &[SHORT, TIMES, STATES, STREAMS, DRAWN]),
            (BitsFromTheLowest, &[SHORT, STREAMS, DRAWN]),
            (RunStopsAtThousand, &[STREAMS, DRAWN]),
            (RunComesRoundAgain, &[STREAMS, DRAWN]),
            (ClosesOneSampleLate, &[SHORT, TIMES, STATES, STREAMS, DRAWN]),
            (EndOfBadPulseNotIdle, &[SHORT, STATES, STREAMS, DRAWN]),
            (ReportedTwice, &[SHORT, STATES, STREAMS, DRAWN]),
            (ForeignKeptForTheNext, &[SHORT, STATES, STREAMS, DRAWN]),
            (ForeignLikeBothLow, &[SHORT, STATES, STREAMS, DRAWN]),
            (ForeignAfterDamageNotSeen, &[SHORT, STATES, STREAMS, DRAWN]),
            (
                IdleForgottenAtEntry,
                &[SHORT, TIMES, STATES, STREAMS, DRAWN],
            ),
            (PulseEndsWithTheBatch, &[SHORT, STATES, STREAMS, DRAWN]),
            (OneSampleMoreTaken, &[SHORT, TIMES, STATES, STREAMS, DRAWN]),
            (TakenBesideBadTimes, &[TIMES, STATES]),
            (StateMeantBesideBadTimes, &[TIMES, STATES]),
            (TimesCutToTwoBytes, &[TIMES, STATES]),
            (EqualLeastAndMostRefused, &[SHORT, TIMES, STATES, STREAMS]),
            (StateNotJudged, &[TIMES, STATES, STREAMS]),
            (PadBitsNotJudged, &[STATES, STREAMS]),
            (StrangeStateKeptByEmptyBatch, &[TIMES, STATES]),
            (SixtyFifthBitDropped, &[SHORT, STATES, STREAMS, DRAWN]),
            (OneBothLowForgiven, &[SHORT, TIMES, STATES, STREAMS, DRAWN]),
            (ChangeOfLineEndsPulse, &[SHORT, STREAMS, DRAWN]),
            (GapOnlyWhenJustReached, &[TIMES, STATES]),
            (
                SpoiledWithoutBitsNotTold,
                &[SHORT, TIMES, STATES, STREAMS, DRAWN],
            ),
            (BitsBesideSpoiled, &[SHORT, STATES, STREAMS]),
            (LongestPulseRefused, &[SHORT, TIMES, STATES, STREAMS, DRAWN]),
        ],
    }
    .settle();
}

#[test]
fn drawings() {
    use Misdrawn::*;
    const SHORT: &str = "drawings, all short messages";
    const FORMS: &str = "drawings, lengths and forms";
    const ANYWHERE: &str = "drawings, from anywhere";
    const SAMPLES: &str = "drawings, each sample, right";
    const HEARD: &str = "drawings, drawn then heard, right";
    Account {
        checks: compare::drawings::checks,
        mirrored: compare::drawings::checks,
        core: Pen,
        found_by: &[
            (
                MarkAndSpaceExchanged,
                &[SHORT, FORMS, ANYWHERE, SAMPLES, HEARD],
            ),
            (BitsFromTheLowest, &[SHORT, FORMS, ANYWHERE, SAMPLES, HEARD]),
            (BatchBeginsABit, &[SHORT, ANYWHERE, SAMPLES, HEARD]),
            (IdleFirst, &[SHORT, FORMS, ANYWHERE, SAMPLES, HEARD]),
            (NoIdleAfterTheLast, &[SHORT, ANYWHERE, SAMPLES, HEARD]),
            (PulseOneLonger, &[SHORT, FORMS, ANYWHERE, SAMPLES, HEARD]),
            (LastSampleDropped, &[SHORT, ANYWHERE, SAMPLES, HEARD]),
            (WritesOneMore, &[SHORT, FORMS, ANYWHERE, SAMPLES, HEARD]),
            (FromCutToFourBytes, &[ANYWHERE]),
            (LengthsCutToTwoBytes, &[FORMS, ANYWHERE]),
            (LongestLowRefused, &[FORMS, ANYWHERE]),
            (LongestStillRefused, &[FORMS, ANYWHERE]),
            (NoStillTaken, &[FORMS, ANYWHERE]),
            (FormBeforeLengths, &[FORMS, ANYWHERE]),
            (PadBitsIgnored, &[FORMS, ANYWHERE]),
            (CountTakenAsByte, &[FORMS]),
            (ByteOfNoBitsTaken, &[FORMS, ANYWHERE]),
            (RefusalChanges, &[FORMS, ANYWHERE]),
            (EndIsRefused, &[SHORT, FORMS, ANYWHERE, SAMPLES, HEARD]),
        ],
    }
    .settle();
}

#[test]
fn pollings() {
    use Mispolled::*;
    const BOARDS: &str = "polling, boards begun";
    const SHORT: &str = "polling, all short answers";
    const TIMES: &str = "polling, timing numbers";
    const STATES: &str = "polling, states of every kind";
    const BATCHES: &str = "polling, rounds in batches";
    const EACH: &str = "polling, each transmitter, right";
    Account {
        checks: compare::pollings::checks,
        mirrored: compare::pollings::checks,
        core: Poller,
        found_by: &[
            (SettingsNotTaken, &[BOARDS, EACH]),
            (OrderNotAsked, &[BOARDS]),
            (RoundBesideRefusal, &[BOARDS]),
            (FreeRowTaken, &[BOARDS]),
            (LastOfThirtyLeftOut, &[BOARDS, EACH]),
            (ThirtyFirstAsked, &[BOARDS]),
            (MinuteLeftOut, &[BOARDS]),
            (FirstAddressForAll, &[STATES, BATCHES, EACH]),
            (NoDelayBeforeAgain, &[STATES, BATCHES, EACH]),
            (RaiseInPoll, &[TIMES, STATES, BATCHES, EACH]),
            (PollOneSampleShort, &[TIMES, STATES, BATCHES, EACH]),
            (BatchBeginsThePoll, &[STATES, BATCHES, EACH]),
            (DrawsWhileListening, &[TIMES, STATES, BATCHES, EACH]),
            (OneByteMoreWritten, &[TIMES, STATES, BATCHES, EACH]),
            (EndLeftDrawing, &[TIMES, STATES, BATCHES]),
            (LargeAddressPolled, &[STATES, BATCHES]),
            (OwnPollHeard, &[TIMES, STATES, BATCHES, EACH]),
            (SilentOneLate, &[SHORT, TIMES, STATES, BATCHES, EACH]),
            (SilentOneEarly, &[SHORT, STATES, BATCHES, EACH]),
            (FirstLowAtWaitIsLate, &[SHORT, STATES, BATCHES, EACH]),
            (GivenUpOneLate, &[SHORT, TIMES, STATES, BATCHES, EACH]),
            (GivenUpBeforeClose, &[SHORT, STATES, BATCHES, EACH]),
            (GivenUpIsSilence, &[SHORT, TIMES, STATES, BATCHES, EACH]),
            (GivenUpIsSpoiled, &[SHORT, STATES, BATCHES, EACH]),
            (SpoiledIsAtRest, &[SHORT, STATES, BATCHES, EACH]),
            (RestTakenToo, &[SHORT, TIMES, STATES, BATCHES, EACH]),
            (FaultyAskedAgain, &[SHORT, TIMES, STATES, BATCHES, EACH]),
            (SpoiledNotAskedAgain, &[SHORT, STATES, BATCHES, EACH]),
            (SilenceNotAskedAgain, &[SHORT, TIMES, STATES, BATCHES, EACH]),
            (OneTryMore, &[SHORT, TIMES, STATES, BATCHES, EACH]),
            (OneTryLess, &[SHORT, STATES, BATCHES, EACH]),
            (TriedKeptForTheNext, &[STATES, BATCHES, EACH]),
            (LastOnlyWhenJustReached, &[STATES]),
            (LinesKept, &[SHORT, STATES, BATCHES]),
            (MinuteOfTheBeginning, &[SHORT, TIMES, STATES, BATCHES, EACH]),
            (MinuteSetWhenAskedAgain, &[SHORT, TIMES, STATES, BATCHES]),
            (OldBitsLeft, &[STATES, BATCHES]),
            (EightBytesAlways, &[SHORT, TIMES, STATES, BATCHES, EACH]),
            (SettingsCleared, &[SHORT, TIMES, STATES, BATCHES, EACH]),
            (UnusedCleared, &[STATES, BATCHES]),
            (OverToldLate, &[STATES, BATCHES, EACH]),
            (NextReplyTold, &[SHORT, TIMES, STATES, BATCHES, EACH]),
            (NumberOnlyWhenAnswered, &[SHORT, STATES, BATCHES, EACH]),
            (OverBeforeTiming, &[TIMES, STATES]),
            (StateMeantBesideTiming, &[TIMES, STATES]),
            (OverStateTidied, &[TIMES, STATES]),
            (PassedComesRound, &[STATES]),
            (ListeningOnlyByOne, &[STATES]),
            (LinesKeptWhileDrawing, &[STATES]),
            (StrangeLinesKept, &[TIMES, STATES]),
            (BeyondThePollIsDrawing, &[STATES]),
            (NoDelayRefused, &[TIMES, SHORT, STATES, BATCHES, EACH]),
            (LongestDelayRefused, &[TIMES, STATES]),
            (TenTriesTaken, &[TIMES, STATES]),
            (TriesCutToByte, &[TIMES, STATES]),
            (WaitAboveLongestTaken, &[TIMES, STATES]),
            (WaitAtLongestRefused, &[TIMES, SHORT, STATES, BATCHES, EACH]),
            (LowOutsidePulseRefused, &[TIMES, STATES, BATCHES, EACH]),
            (StillAtGapRefused, &[TIMES, STATES, BATCHES, EACH]),
            (GapAboveLongestRefused, &[TIMES, STATES, BATCHES, EACH]),
            (TenMillionRefused, &[TIMES, STATES]),
            (NumbersCutToTwoBytes, &[TIMES, STATES]),
        ],
    }
    .settle();
}

#[test]
fn way() {
    use Misheard::*;
    const WAY: &[&str] = &["way, wire to listing, right"];
    Account {
        checks: compare::way::checks,
        mirrored: compare::way::checks,
        core: |mistake| Damaged(mistake.unwrap_or(Nothing)),
        found_by: &[
            (RefusesEverySave, WAY),
            (SavesNothing, WAY),
            (FeignsAllButFirst, WAY),
            (LengthFirst, WAY),
            (FullTooEarly, WAY),
            (SpoiledCalledForeign, WAY),
            (FaultyNotCounted, WAY),
            (NoLastLine, WAY),
            (Mishears(MarkAndSpaceSwapped), WAY),
            (Mishears(BitsFromTheLowest), WAY),
            (Mishears(ClosesOneSampleLate), WAY),
            (Mishears(ReportedTwice), WAY),
            (Mishears(IdleForgottenAtEntry), WAY),
            (Mishears(PulseEndsWithTheBatch), WAY),
            (Mishears(OneSampleMoreTaken), WAY),
            (Mishears(OneBothLowForgiven), WAY),
            (Mishears(ChangeOfLineEndsPulse), WAY),
            (Mishears(LongestPulseRefused), WAY),
            (Misdraws(Misdrawn::MarkAndSpaceExchanged), WAY),
            (Misdraws(Misdrawn::BatchBeginsABit), WAY),
            (Misdraws(Misdrawn::PulseOneLonger), WAY),
        ],
    }
    .settle();
}

#[test]
fn items() {
    use Mistold::*;
    const SHORT: &str = "items, all short texts";
    const HEADS: &str = "items, all letters and addresses";
    const KINDS: &str = "items, all kinds and errors written";
    const ROOMS: &str = "items, all lengths and rooms";
    const CHANGED: &str = "items, records with one byte changed";
    const RANDOM: &str = "items, random and damaged";
    Account {
        checks: compare::items::checks,
        mirrored: compare::items::checks,
        core: Clerk,
        found_by: &[
            (
                CheckWithCarry,
                &[SHORT, HEADS, KINDS, ROOMS, CHANGED, RANDOM],
            ),
            (StxInCheck, &[SHORT, HEADS, KINDS, ROOMS, CHANGED, RANDOM]),
            (
                EtxNotInCheck,
                &[SHORT, HEADS, KINDS, ROOMS, CHANGED, RANDOM],
            ),
            (CheckInSevenBits, &[CHANGED, RANDOM]),
            (CheckInEightBits, &[SHORT, HEADS, CHANGED, RANDOM]),
            (CheckBeforeFraming, &[CHANGED, RANDOM]),
            (TextBeforeAddress, &[RANDOM]),
            (WildcardsTaken, &[HEADS, CHANGED]),
            (SmallLetterTaken, &[HEADS, CHANGED, RANDOM]),
            (EqualsInData, &[SHORT, CHANGED, RANDOM]),
            (TakenSettingAsSetting, &[SHORT, CHANGED, RANDOM]),
            (TwoErrorDigits, &[SHORT, RANDOM]),
            (ErrorReversed, &[SHORT, KINDS, CHANGED, RANDOM]),
            (SeventeenthCharacterDropped, &[KINDS, ROOMS, RANDOM]),
            (LongRecordIsFraming, &[CHANGED, RANDOM]),
            (FirstEtxEnds, &[SHORT, CHANGED, RANDOM]),
            (ShortBeforeText, &[ROOMS, RANDOM]),
            (TextBeforeAddressWritten, &[RANDOM]),
            (WritesOneMore, &[HEADS, KINDS, ROOMS, CHANGED, RANDOM]),
            (RefusedWriteChanges, &[ROOMS, RANDOM]),
            (DataIgnoredBesideAlone, &[KINDS, ROOMS, RANDOM]),
            (ErrorIgnoredBesideValue, &[KINDS, RANDOM]),
            (NumbersCutToByte, &[HEADS, RANDOM]),
            (TildeRefused, &[SHORT, CHANGED, RANDOM]),
            (DeleteTaken, &[SHORT, CHANGED, RANDOM]),
            (ErrorOfFourDigits, &[KINDS, RANDOM]),
            (SeventhKind, &[KINDS, ROOMS, RANDOM]),
            (DataLeftBehindItsLength, &[SHORT, CHANGED, RANDOM]),
        ],
    }
    .settle();
}

#[test]
fn areas() {
    use Miswired::*;
    const SMALL: &str = "areas, all small sites and plans";
    const EVEN: &str = "areas, one transmitter and even sites";
    const SITES: &str = "areas, sites of any kind";
    Account {
        checks: compare::areas::checks,
        mirrored: compare::areas::checks,
        core: Fitter,
        found_by: &[
            (FeetBelowTheLimit, &[SMALL, EVEN, SITES]),
            (FiftyTenths, &[SMALL, EVEN, SITES]),
            (ThirtyFirstInArea, &[EVEN, SITES]),
            (NinthArea, &[EVEN, SITES]),
            (OneTransmitterEarly, &[SMALL, EVEN, SITES]),
            (AlwaysRefused, &[SMALL, EVEN, SITES]),
            (FirstAddsNoFeet, &[SMALL, EVEN, SITES]),
            (FeetAndTenthsSwapped, &[SMALL, EVEN, SITES]),
            (FeetComeRoundAgain, &[SITES]),
            (EmptySiteRefused, &[SMALL, EVEN, SITES]),
            (LastAreasEvened, &[SMALL, EVEN, SITES]),
            (RubbishAfterLastSize, &[SMALL, EVEN, SITES]),
            (LargeSitePlanned, &[EVEN, SITES]),
            (LargeSiteChecked, &[EVEN, SITES]),
            (LastLeftOut, &[SMALL, SITES]),
            (EmptyAreaTaken, &[SMALL, EVEN, SITES]),
            (PlanSumComesRoundAgain, &[SMALL]),
            (NineAreasAccepted, &[SITES]),
            (ReachesBeyondTheSite, &[SMALL, SITES]),
        ],
    }
    .settle();
}

#[test]
fn summaries() {
    use Miscounted::*;
    const SHEETS: &str = "summaries, worked out from sheets";
    const HANDED: &str = "summaries, handed in with a save";
    const HISTORIES: &str = "summaries, histories cut anywhere";
    const MONTH: &str = "summaries, a month, right";
    Account {
        checks: compare::summaries::checks,
        mirrored: compare::summaries::checks,
        core: Desk,
        found_by: &[
            (SmallestPairsKept, &[SHEETS]),
            (OthersByPairs, &[SHEETS, HANDED, HISTORIES]),
            (OthersNotCounted, &[SHEETS, HANDED, HISTORIES]),
            (OnlyGoodOthersCounted, &[SHEETS, HANDED, HISTORIES]),
            (ThirtyFirstLine, &[SHEETS, HANDED, HISTORIES]),
            (BrokenSaveCounted, &[HANDED, HISTORIES, MONTH]),
            (NoStoresCounted, &[HANDED, HISTORIES, MONTH]),
            (NewLineAtTheEnd, &[SHEETS, HANDED, HISTORIES]),
            (LastLineLost, &[SHEETS, HANDED, HISTORIES]),
            (SettingsNotInThePair, &[SHEETS, HANDED, HISTORIES, MONTH]),
            (ZeroForNoLevel, &[SHEETS, HANDED, HISTORIES]),
            (LowestNotLowered, &[SHEETS, HANDED, HISTORIES, MONTH]),
            (HighestOfTheLast, &[SHEETS, HANDED, HISTORIES, MONTH]),
            (FaultyCountedGood, &[SHEETS, HANDED, HISTORIES, MONTH]),
            (FaultyChangesLevels, &[SHEETS, HANDED, HISTORIES, MONTH]),
            (LargeCountBeforeForm, &[HANDED]),
            (SheetBeforeForm, &[HANDED]),
            (FullBeforeForm, &[HANDED]),
            (OthersNotAsked, &[HANDED]),
            (FaultyCountNotAsked, &[HANDED]),
            (UnusedLinesNotAsked, &[HANDED]),
            (EqualLinesTaken, &[HANDED]),
            (OrderOfSettingsNotAsked, &[HANDED]),
            (LevelsNotAsked, &[HANDED]),
            (HighestNotAsked, &[HANDED]),
            (MillionRefused, &[HANDED]),
            (CrossedLevelsRefused, &[HANDED]),
            (LargeAddressRefused, &[HANDED]),
            (LineWithoutRepliesRefused, &[HANDED]),
            (SavedThoughRefused, &[HANDED]),
            (BlankBesideRefusal, &[HANDED]),
            (FirstSlotsOnly, &[SHEETS]),
            (SpoiledCounted, &[SHEETS]),
            (BadSizeBlank, &[SHEETS]),
            (OthersKeepPairsOut, &[HANDED]),
        ],
    }
    .settle();
}

#[test]
fn joins() {
    use Misjoined::*;
    const HANDED: &str = "joins, of pages handed in";
    const GROUPED: &str = "joins, groupings";
    const LISTS: &str = "joins, lists end to end";
    Account {
        checks: compare::joins::checks,
        mirrored: compare::joins::checks,
        core: Joiner,
        found_by: &[
            (SecondsLevelsTaken, &[HANDED, GROUPED, LISTS]),
            (LargerCountTaken, &[HANDED, GROUPED, LISTS]),
            (FirstFormAlone, &[HANDED]),
            (FormAskedLast, &[HANDED]),
            (SumsStopAtMillion, &[HANDED, GROUPED]),
            (SumsComeRoundAgain, &[HANDED]),
            (ThirtyFirstPairIsAnother, &[HANDED, GROUPED, LISTS]),
            (LinesPutAtTheEnd, &[HANDED, GROUPED, LISTS]),
            (LargeCountBeforeUnjoined, &[HANDED, GROUPED]),
            (OthersAddedUp, &[HANDED, LISTS]),
            (OthersOfSecondNotAsked, &[HANDED, LISTS]),
            (NoLevelIsHighest, &[HANDED, GROUPED, LISTS]),
            (NoLevelIsZero, &[HANDED, GROUPED, LISTS]),
            (LastLineLeftOut, &[HANDED, GROUPED, LISTS]),
            (MillionRefused, &[HANDED, GROUPED]),
            (FaultySumNotAsked, &[HANDED, GROUPED]),
            (TwentyNinePairsAtMost, &[HANDED, GROUPED, LISTS]),
        ],
    }
    .settle();
}

#[test]
fn rounds() {
    use Misrounded::*;
    const KINDS: &str = "rounds, of every kind";
    const CUT: &str = "rounds, cut after every store";
    const MONTH: &str = "rounds, a month cut everywhere, right";
    Account {
        checks: compare::rounds::checks,
        mirrored: compare::rounds::checks,
        core: Rounder,
        found_by: &[
            (RefusedReplySkipped, &[KINDS, CUT]),
            (WholeAllowanceForEach, &[KINDS, CUT, MONTH]),
            (AskedWithNothingLeft, &[KINDS, CUT]),
            (BrokenCountedClosed, &[KINDS, CUT, MONTH]),
            (StoresOfClosedOnly, &[KINDS, CUT, MONTH]),
            (FirstThirtySaved, &[KINDS, CUT]),
            (SheetBeforeNumber, &[KINDS, CUT]),
            (EmptyRoundAsksSheet, &[KINDS, CUT]),
            (RefusalForgotten, &[KINDS, CUT]),
            (NothingBesideRefusal, &[KINDS, CUT]),
            (BytesNotAsked, &[KINDS, CUT]),
            (BytesCutToOne, &[KINDS]),
            (CountCutToOne, &[KINDS]),
            (UnusedRead, &[KINDS, CUT]),
            (ThirtyRefused, &[KINDS, MONTH]),
            (StopsAtFaultyReply, &[KINDS, CUT, MONTH]),
            (LastReplyLeftOut, &[KINDS, MONTH]),
            (OneStoreTooMany, &[KINDS, CUT, MONTH]),
            (PageNotBroughtUpToDate, &[KINDS, CUT, MONTH]),
            (PageAskedForEmptyRound, &[KINDS, CUT]),
            (PageAskedOnce, &[KINDS]),
            (PageBlankBesideRefusal, &[KINDS, CUT]),
            (PageCountsBroken, &[KINDS, CUT, MONTH]),
        ],
    }
    .settle();
}

#[test]
fn stores() {
    use Mismade::*;
    const SHEETS: &str = "stores told, of every sheet";
    const ORDER: &str = "stores told, made in order, right";
    const BUT_LAST: &str = "stores told, all but the last, right";
    const HISTORIES: &str = "stores told, a host's histories, right";
    Account {
        checks: compare::stores::checks,
        mirrored: compare::stores::checks,
        core: Teller,
        found_by: &[
            (LowLengthByteLast, &[SHEETS, ORDER, BUT_LAST, HISTORIES]),
            (LengthFirst, &[SHEETS, ORDER, BUT_LAST, HISTORIES]),
            (OneStoreTooFew, &[SHEETS, ORDER, BUT_LAST, HISTORIES]),
            (FirstBlankSlot, &[SHEETS, ORDER]),
            (FullBeforeForm, &[SHEETS, ORDER, HISTORIES]),
            (SettingsBeforeSheet, &[SHEETS, ORDER]),
            (LargeSheetTold, &[SHEETS, ORDER]),
            (SlotBesideRefusal, &[SHEETS]),
            (RowsNotCleared, &[SHEETS]),
            (PlaceInNextSlot, &[SHEETS, ORDER, BUT_LAST, HISTORIES]),
            (PlacesOfTheSheet, &[SHEETS, ORDER, BUT_LAST, HISTORIES]),
            (MinuteLowByteFirst, &[SHEETS, ORDER, BUT_LAST, HISTORIES]),
            (LengthCountsItself, &[SHEETS, ORDER, BUT_LAST, HISTORIES]),
            (SlotsCountedFromOne, &[SHEETS, ORDER, BUT_LAST]),
        ],
    }
    .settle();
}
