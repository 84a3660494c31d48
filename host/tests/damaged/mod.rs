//! Cores that are right but for one mistake, to see that a comparison can fail.

pub mod areas;
pub mod drawings;
pub mod items;
pub mod joins;
pub mod lines;
pub mod pollings;
pub mod rounds;
pub mod stores;
pub mod summaries;

use drawings::{Misdrawn, Pen};
use lines::{Listener, Misheard};
use sisalcove_host::calls::{Drawings, Lines};
use sisalcove_host::reading::{board, IndependentReading};
use sisalcove_host::types::drawings::Drawing;
use sisalcove_host::types::lines::{LinesTold, PulseTimes, SoFar};
use sisalcove_host::types::{BLANK, SLOT, TYPE_1800};
use sisalcove_host::{
    Answer, Core, Entry, Fault, Poll, Reading, Record, Row, Slot, Standing, Temperature,
};

/// The mistakes.
#[derive(Clone, Copy, Debug, PartialEq, Eq)]
pub enum Damage {
    Nothing,
    // polls
    UnusedBitOfPollRead,
    RaiseAndResetSwapped,
    PollWritesThreeBytes,
    ShortBeforeAddress,
    // replies
    ChartEndByCode,
    RangeCalledCode,
    LastUnreadableNamed,
    CodeBeforeFill,
    OneLevelWrong,
    ZeroWrittenNegative,
    LowestTemperatureWrong,
    HundredOf1800Unread,
    HundredBesideAboveRead,
    DigitsBesideAboveRead,
    DigitAboveNineInAddress,
    PadBitsIgnored,
    CountTakenAsByte,
    ParityBeforeAddress,
    AddressBeforeSettings,
    ReplyWritesOneMore,
    AlarmsSwapped,
    // sheets
    LargeSheetAccepted,
    SlotPastLastBlank,
    RefusesEverySave,
    SavesNothing,
    FeignsAllButFirst,
    InventedCount,
    LengthFirst,
    FullTooEarly,
    FirstBlankSlot,
    LastByteIgnored,
    VersionIgnored,
    SpoiledCalledForeign,
    FaultyNotCounted,
    NoLastLine,
    // boards
    ReadingClearedByFault,
    FaultKeptByGoodReply,
    PlaceKeptBesideOtherFault,
    PlaceNotInRow,
    CountWraps,
    CountKeptByGoodReply,
    HeardKeptByFault,
    LatestMinuteIsLargest,
    RowPastThirtiethUsed,
    EnrolsBehindOthers,
    RemovalLeavesHole,
    FreedRowKept,
    SameAddressTwice,
    HoleBetweenRows,
    LookAsksNoOrder,
    SettingsBeforeOrder,
    RemovalKeepsAddress,
    UnknownBeforeForm,
    SettingsOfRowNotAsked,
    /// A mistake of the lines, where a core is to hear, save and list.
    Mishears(Misheard),
    Misdraws(Misdrawn),
    ProfileEndsStrict,
    ProfileOf1800Checked,
    ReadingClearedByProfile,
    ProfileOf1800Enrolled,
    TwiceBeforeProfile,
    RemovalKeepsGauge,
    GaugeToldAsItStands,
    RaiseToAnyRow,
    RaiseAndResetAtOnce,
    RaiseWrittenAsReset,
    ShortBeforeMark,
}

use Damage::*;

impl Damage {
    /// The rows as a look takes them that does not ask for the order, or asks too little.
    fn tidied(self, rows: &[Row]) -> Vec<Row> {
        let count = rows.len().min(30);
        let mut rows = rows[..count].to_vec();
        match self {
            SameAddressTwice => rows.dedup_by_key(|row| (row.in_use, row.address)),
            HoleBetweenRows => rows.sort_by_key(|row| !row.in_use),
            LookAsksNoOrder => {
                rows.sort_by_key(|row| (!row.in_use, row.address));
                rows.dedup_by_key(|row| (row.in_use, row.address));
            }
            _ => {}
        }
        rows
    }

    /// Whether a reading that a row was rightly set to is refused by 26: at an end of the row's
    /// profile, or beyond it in an 1800 row.
    fn refuses(self, row: &Row) -> bool {
        let temperature = row.last.map(|last| last.reading.temperature);
        let (Some(range), Some(Temperature::Degrees(tenths))) =
            (board::profile(row.gauge), temperature)
        else {
            return false;
        };
        match self {
            ProfileEndsStrict if row.settings & TYPE_1800 == 0 => {
                tenths == *range.start() || tenths == *range.end()
            }
            ProfileOf1800Checked => !range.contains(&tenths),
            _ => false,
        }
    }
}

/// The damaged core.
pub struct Damaged(pub Damage);

const RIGHT: IndependentReading = IndependentReading;

/// The slots that begin a sheet up to the first blank one, that one included.
fn up_to_first_blank(sheet: &mut [u8]) -> &mut [u8] {
    let blank = |slot: &[u8]| slot.iter().all(|&byte| byte == BLANK);
    let end = match sheet.chunks(SLOT).position(blank) {
        Some(first) => (first + 1) * SLOT,
        None => sheet.len(),
    };
    &mut sheet[..end]
}

/// The trap of the paper: the chart's end chosen by the lowest bit of the code above.
fn decimal_by_code(reply: &[u8]) -> Answer<u16> {
    const TENS: [u8; 8] = [0, 1, 3, 2, 6, 7, 5, 4];
    const DECIMAL: [u8; 10] = [0, 1, 3, 2, 6, 7, 5, 4, 12, 8];
    let mut bytes = [0; 8];
    bytes[..5].copy_from_slice(&reply[..5]);
    let word = u64::from_be_bytes(bytes);
    let mut above = (word >> 45) as u8 & 7;
    let mut level = TENS.iter().position(|&code| code == above).unwrap_or(0);
    for shift in [41, 37, 33] {
        let code = (word >> shift) as u8 & 15;
        let found = DECIMAL.iter().position(|&known| known == code);
        let digit = found.ok_or(Fault::Code1)?;
        level = 10 * level + if above & 1 == 1 { 9 - digit } else { digit };
        above = code;
    }
    Ok(level as u16)
}

/// The place of an unreadable digit counted from the bottom of four.
fn last_unreadable(fault: Fault) -> Fault {
    Fault::code(5 - fault.place()).unwrap_or(fault)
}

/// A reply with other bits and its parity as it was.
fn with_bits(reply: &[u8], change: impl Fn(&mut [u8; 12])) -> Vec<u8> {
    let mut bytes = [0; 12];
    let length = reply.len().min(12);
    bytes[..length].copy_from_slice(&reply[..length]);
    let ones = |bytes: &[u8]| bytes.iter().map(|byte| byte.count_ones()).sum::<u32>();
    let before = ones(&bytes[..length]);
    change(&mut bytes);
    if (ones(&bytes[..length]) ^ before) & 1 == 1 {
        bytes[length - 1] ^= 1;
    }
    bytes[..length].to_vec()
}

impl Core for Damaged {
    type Row = Row;

    fn read_poll(&self, poll: &[u8]) -> Answer<Poll> {
        if self.0 == UnusedBitOfPollRead && poll.first().is_some_and(|byte| byte & 0x40 != 0) {
            return Err(Fault::Poll);
        }
        RIGHT.read_poll(poll)
    }

    fn write_poll(&self, poll: &Poll, out: &mut [u8]) -> Answer<usize> {
        let mut poll = *poll;
        if self.0 == RaiseAndResetSwapped {
            (poll.raise, poll.reset) = (poll.reset, poll.raise);
        }
        if self.0 == ShortBeforeAddress && out.len() < 2 {
            return Err(Fault::Short);
        }
        if self.0 == PollWritesThreeBytes && out.len() > 2 {
            out[2] = 0;
        }
        RIGHT.write_poll(&poll, out)
    }

    fn read_reply(
        &self,
        settings: u8,
        address: u16,
        count: usize,
        reply: &[u8],
    ) -> Answer<Reading> {
        let right = RIGHT.read_reply(settings, address, count, reply);
        match (self.0, right) {
            (ChartEndByCode, Ok(reading)) if settings & 3 == 1 => {
                let level = decimal_by_code(reply)?;
                Ok(Reading { level, ..reading })
            }
            (RangeCalledCode, Err(Fault::Range)) => Err(Fault::Code1),
            (LastUnreadableNamed, Err(fault)) if fault.number() == 7 => Err(last_unreadable(fault)),
            (CodeBeforeFill, Err(Fault::Fill)) => {
                let cleared = with_bits(reply, |bytes| {
                    bytes[3] &= !1;
                    bytes[4] &= 7;
                });
                match RIGHT.read_reply(settings, address, count, &cleared) {
                    Err(fault) if fault.number() == 7 => Err(fault),
                    _ => right,
                }
            }
            (OneLevelWrong, Ok(reading)) if settings & 3 == 2 && reading.level == 12_345 => {
                Ok(Reading {
                    level: 12_346,
                    ..reading
                })
            }
            (LowestTemperatureWrong, Ok(reading))
                if reading.temperature == Temperature::Degrees(-7_999) =>
            {
                let temperature = Temperature::Degrees(-7_998);
                Ok(Reading {
                    temperature,
                    ..reading
                })
            }
            (HundredOf1800Unread, Ok(reading)) if settings & 4 != 0 => {
                let temperature = match reading.temperature {
                    Temperature::Degrees(tenths) => Temperature::Degrees(tenths % 1_000),
                    other => other,
                };
                Ok(Reading {
                    temperature,
                    ..reading
                })
            }
            (HundredBesideAboveRead, Ok(reading))
                if reading.temperature == Temperature::Above && reply[5] & 0x40 != 0 =>
            {
                Err(Fault::Temperature)
            }
            (DigitsBesideAboveRead, Ok(reading))
                if reading.temperature == Temperature::Above && reply[6] & 0x1E > 0x12 =>
            {
                Err(Fault::Temperature)
            }
            (DigitAboveNineInAddress, Err(Fault::Address)) => {
                let digits = u16::from_be_bytes([reply[0], reply[1]]) >> 1 & 0xFFF;
                let value = (digits >> 8) * 100 + (digits >> 4 & 15) * 10 + (digits & 15);
                if value == address {
                    Err(Fault::Code1)
                } else {
                    right
                }
            }
            (PadBitsIgnored, Err(Fault::Form))
                if count <= 64 && reply.len() == count.div_ceil(8) =>
            {
                Err(Fault::Length)
            }
            (CountTakenAsByte, Err(Fault::Form)) => {
                RIGHT.read_reply(settings, address, count % 256, reply)
            }
            (ParityBeforeAddress, Err(Fault::Address)) => {
                let ones: u32 = reply.iter().map(|byte| byte.count_ones()).sum();
                if (ones & 1 == 1) != (settings & 8 != 0) {
                    Err(Fault::Parity)
                } else {
                    right
                }
            }
            (AddressBeforeSettings, Err(Fault::Settings)) if address > 999 => {
                Err(Fault::AskedAddress)
            }
            (AlarmsSwapped, Ok(reading)) => Ok(Reading {
                alarm1: reading.alarm0,
                alarm0: reading.alarm1,
                ..reading
            }),
            _ => right,
        }
    }

    fn write_reply(
        &self,
        settings: u8,
        address: u16,
        reading: &Reading,
        out: &mut [u8],
    ) -> Answer<usize> {
        let bytes = RIGHT.write_reply(settings, address, reading, out)?;
        if self.0 == ReplyWritesOneMore && out.len() > bytes {
            out[bytes] = 0;
        }
        if self.0 == ZeroWrittenNegative && reading.temperature == Temperature::Degrees(0) {
            // bit 41 cleared, bit 56 turned with it
            out[5] ^= 0x80;
            out[6] ^= 1;
        }
        Ok(bytes)
    }

    fn save(&self, sheet: &mut [u8], entry: &Entry, allowance: usize) -> Answer<usize> {
        let whole = 11 + entry.reply.len();
        match self.0 {
            RefusesEverySave => {
                RIGHT.save(&mut sheet.to_vec(), entry, 0)?;
                Err(Fault::Full)
            }
            SavesNothing => RIGHT.save(&mut sheet.to_vec(), entry, allowance),
            FeignsAllButFirst if sheet.iter().any(|&byte| byte != BLANK) => {
                RIGHT.save(&mut sheet.to_vec(), entry, allowance)
            }
            InventedCount => RIGHT.save(sheet, entry, allowance).map(|_| whole),
            LengthFirst => {
                let mut full = sheet.to_vec();
                RIGHT.save(&mut full, entry, usize::MAX)?;
                let changed: Vec<usize> = (0..sheet.len() / SLOT)
                    .filter(|slot| sheet[slot * SLOT] != full[slot * SLOT])
                    .collect();
                for slot in changed {
                    let start = slot * SLOT;
                    let end = start + allowance.min(whole);
                    sheet[start..end].copy_from_slice(&full[start..end]);
                }
                Ok(allowance.min(whole))
            }
            FullTooEarly if sheet.len() >= SLOT && sheet.len() <= 65_536 => {
                let end = sheet.len() - SLOT;
                RIGHT.save(&mut sheet[..end], entry, allowance)
            }
            FirstBlankSlot if sheet.len() % SLOT == 0 && sheet.len() <= 65_536 => {
                RIGHT.save(up_to_first_blank(sheet), entry, allowance)
            }
            _ => RIGHT.save(sheet, entry, allowance),
        }
    }

    fn look(&self, sheet: &[u8], slot: usize) -> Answer<Slot> {
        let right = RIGHT.look(sheet, slot);
        let whole = sheet.len() % SLOT == 0;
        match (self.0, right) {
            (LargeSheetAccepted, Err(_)) if whole && slot < sheet.len() / SLOT => {
                RIGHT.look(&sheet[slot * SLOT..(slot + 1) * SLOT], 0)
            }
            (SlotPastLastBlank, Err(_)) if whole && slot == sheet.len() / SLOT => Ok(Slot::Blank),
            (LastByteIgnored | VersionIgnored, Ok(Slot::Foreign)) => {
                let mut bytes = [0; SLOT];
                bytes.copy_from_slice(&sheet[slot * SLOT..(slot + 1) * SLOT]);
                if self.0 == LastByteIgnored {
                    bytes[SLOT - 1] = BLANK;
                } else {
                    bytes[2] = 1;
                }
                RIGHT.look(&bytes, 0)
            }
            _ => right,
        }
    }

    fn head_line(&self, sheet: &[u8], line: &mut [u8]) -> Answer<usize> {
        RIGHT.head_line(sheet, line)
    }

    fn slot_line(&self, sheet: &[u8], slot: usize, line: &mut [u8]) -> Answer<usize> {
        if self.0 == SpoiledCalledForeign && RIGHT.look(sheet, slot) == Ok(Slot::Spoiled) {
            let text = format!("{slot} foreign\n");
            line[..text.len()].copy_from_slice(text.as_bytes());
            return Ok(text.len());
        }
        RIGHT.slot_line(sheet, slot, line)
    }

    fn last_line(&self, sheet: &[u8], line: &mut [u8]) -> Answer<usize> {
        if self.0 == FaultyNotCounted {
            let good = |record: &Record| {
                let count = usize::from(record.count);
                RIGHT.read_reply(record.settings, record.address, count, record.reply())
            };
            let records = sisalcove_host::reading::sheet::list(sheet)?;
            let records = records.iter().filter(|record| good(record).is_ok()).count();
            let text = format!("records {records}\n");
            line[..text.len()].copy_from_slice(text.as_bytes());
            return Ok(text.len());
        }
        RIGHT.last_line(sheet, line)
    }

    fn list(&self, sheet: &[u8], text: &mut Vec<u8>) {
        RIGHT.list(sheet, text);
        if self.0 == NoLastLine {
            while text.pop().is_some() && text.last() != Some(&b'\n') {}
        }
    }

    fn enrol(&self, rows: &mut [Row], settings: u8, address: u16, gauge: u8) -> Answer<()> {
        if self.0 == SettingsBeforeOrder && settings > 15 {
            return Err(Fault::Settings);
        }
        let answer = board::enrol(rows, settings, address, gauge);
        match (self.0, answer) {
            (EnrolsBehindOthers, Ok(())) => {
                let used = rows.iter().take(30).filter(|row| row.in_use).count();
                let at = rows.iter().position(|row| row.address == address);
                rows[at.unwrap_or(0)..used].rotate_left(1);
                Ok(())
            }
            (RowPastThirtiethUsed, Err(Fault::NoRow)) if rows.len() > 30 => {
                board::enrol(&mut rows[30..], settings, address, gauge)
            }
            (ProfileOf1800Enrolled, Err(Fault::ProfileOf1800)) => {
                board::enrol(rows, settings, address, 0)
            }
            (TwiceBeforeProfile, Err(Fault::ProfileOf1800)) => {
                let held = board::look_up(rows, address).is_ok();
                Err(if held {
                    Fault::Twice
                } else {
                    Fault::ProfileOf1800
                })
            }
            (_, answer) => answer,
        }
    }

    fn hear(
        &self,
        rows: &mut [Row],
        minute: u32,
        address: u16,
        count: usize,
        reply: &[u8],
    ) -> Answer<()> {
        let before = rows.to_vec();
        let answer = board::hear(rows, minute, address, count, reply);
        let mine = rows
            .iter()
            .position(|row| row.in_use && row.address == address);
        if let (Some(mine), Ok(())) = (mine, answer) {
            if self.0.refuses(&rows[mine]) {
                rows[mine] = Row {
                    fault: 26,
                    place: 0,
                    faulty: before[mine].faulty.saturating_add(1),
                    heard: minute,
                    ..before[mine]
                };
                return Err(Fault::OutsideProfile);
            }
        }
        match (self.0, answer, mine) {
            (ReadingClearedByProfile, Err(Fault::OutsideProfile), Some(mine)) => {
                rows[mine].last = None;
            }
            (ReadingClearedByFault, Err(Fault::Parity), Some(mine)) => rows[mine].last = None,
            (FaultKeptByGoodReply, Ok(()), Some(mine)) => rows[mine].fault = before[mine].fault,
            (PlaceKeptBesideOtherFault, Err(Fault::Parity), Some(mine)) => {
                rows[mine].place = before[mine].place;
            }
            (PlaceNotInRow, Err(fault), Some(mine)) if fault.number() == 7 => {
                rows[mine].place = 0;
            }
            (CountWraps, Err(fault), Some(mine)) if fault.number() <= 9 => {
                rows[mine].faulty = before[mine].faulty.wrapping_add(1);
            }
            (CountKeptByGoodReply, Ok(()), Some(mine)) => rows[mine].faulty = before[mine].faulty,
            (HeardKeptByFault, Err(fault), Some(mine)) if fault.number() <= 9 => {
                rows[mine].heard = before[mine].heard;
            }
            (LatestMinuteIsLargest, _, Some(mine)) => {
                rows[mine].heard = rows[mine].heard.max(before[mine].heard);
            }
            (UnknownBeforeForm, Err(Fault::Form), None) => return Err(Fault::Unknown),
            (SettingsOfRowNotAsked, Err(Fault::Settings), Some(mine)) => {
                let settings = rows[mine].settings;
                rows[mine].settings &= 15;
                let answer = board::hear(rows, minute, address, count, reply);
                rows[mine].settings = settings;
                return answer;
            }
            _ => {}
        }
        answer
    }

    fn remove(&self, rows: &mut [Row], address: u16) -> Answer<()> {
        let before = rows.to_vec();
        board::remove(rows, address)?;
        let mine = |row: &Row| row.in_use && row.address == address;
        if let Some(mine) = before.iter().position(mine) {
            let last = before.iter().take(30).filter(|row| row.in_use).count() - 1;
            match self.0 {
                RemovalLeavesHole => rows[mine..=last].rotate_right(1),
                FreedRowKept => rows[last].settings = before[last].settings,
                _ => {}
            }
        }
        for (row, before) in rows.iter_mut().zip(before) {
            match self.0 {
                RemovalKeepsAddress => row.address = before.address,
                RemovalKeepsGauge => row.gauge = before.gauge,
                _ => {}
            }
        }
        Ok(())
    }

    fn look_up(&self, rows: &[Row], address: u16) -> Answer<Standing> {
        let tidied = self.0.tidied(rows);
        let mut standing = board::look_up(&tidied, address)?;
        let mine = rows.iter().find(|row| row.in_use && row.address == address);
        if let (GaugeToldAsItStands, Some(mine)) = (self.0, mine) {
            standing.gauge = mine.gauge;
        }
        Ok(standing)
    }

    fn poll_row(
        &self,
        rows: &[Row],
        address: u16,
        raise: u8,
        reset: u8,
        out: &mut [u8],
    ) -> Answer<()> {
        let answer = board::poll(rows, address, raise, reset, out);
        let refused = answer == Err(Fault::RaiseOrReset);
        let poll = Poll {
            address,
            raise: raise != 0,
            reset: reset != 0,
        };
        match self.0 {
            RaiseToAnyRow if refused && (raise == 0) != (reset == 0) => {
                RIGHT.write_poll(&poll, out).map(|_| ())
            }
            RaiseAndResetAtOnce if refused && raise != 0 && reset != 0 => {
                RIGHT.write_poll(&poll, out).map(|_| ())
            }
            RaiseWrittenAsReset => board::poll(rows, address, reset, raise, out),
            ShortBeforeMark if refused && out.len() < 2 => Err(Fault::Short),
            _ => answer,
        }
    }

    fn row(&self, says: &Row) -> Row {
        *says
    }

    fn says(&self, row: &Row) -> Row {
        *row
    }
}

impl Drawings for Damaged {
    fn draw(&self, drawing: &Drawing, from: usize, out: &mut [u8]) -> Answer<usize> {
        let mistake = match self.0 {
            Misdraws(mistake) => Some(mistake),
            _ => None,
        };
        Pen(mistake).draw(drawing, from, out)
    }
}

impl Lines for Damaged {
    fn hear_lines(&self, so_far: SoFar, times: PulseTimes, samples: &[u8]) -> LinesTold {
        let mistake = match self.0 {
            Mishears(mistake) => Some(mistake),
            _ => None,
        };
        Listener(mistake).hear_lines(so_far, times, samples)
    }
}
