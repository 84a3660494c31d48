//! The values that document 01 speaks of, as ordinary Rust types shared by every core; those of
//! the requests, document 02's and our own, stand in files of their own.

pub mod areas;
pub mod drawings;
pub mod items;
pub mod lines;
pub mod pollings;
pub mod rounds;
pub mod stores;
pub mod summaries;

use std::fmt;

/// Largest address on the line.
pub const LARGEST_ADDRESS: u16 = 999;
/// Largest settings byte: bits 0-1 mode, 2 type 1800, 3 odd parity, the rest 0.
pub const LARGEST_SETTINGS: u8 = 15;
/// Settings bit of type 1800.
pub const TYPE_1800: u8 = 4;
/// Profiles of a row: 100 ohm copper, and DIN platinum; any other of bits 0 and 1 is none.
pub const COPPER: u8 = 1;
pub const PLATINUM: u8 = 2;
/// Bit of a row's gauge that marks a 6500.
pub const MARK_6500: u8 = 4;
/// Settings bit of odd parity.
pub const ODD_PARITY: u8 = 8;
/// Largest level of each mode, in the mode's unit.
pub const LARGEST_LEVEL: [u16; 4] = [15_359, 7_999, 19_999, 32_699];
/// Bytes of a slot of the sheet.
pub const SLOT: usize = 32;
/// Bytes of the largest sheet.
pub const LARGEST_SHEET: usize = 65_536;
/// Rows of the board that are ever read or written.
pub const ROWS: usize = 30;
/// A blank byte of the sheet.
pub const BLANK: u8 = 0xFF;
/// Enough bytes for any line of a listing; the longest, newline included, takes 36.
pub const LINE: usize = 64;

/// The fault numbers of documents 01 and 02.
///
/// Two bytes wide, as degrees are: an answer of either then fits one machine word without the
/// compiler taking it apart and together again through memory.
#[derive(Clone, Copy, Debug, PartialEq, Eq, PartialOrd, Ord, Hash)]
#[repr(u16)]
pub enum Fault {
    Silent = 1,
    Length = 2,
    Start = 3,
    Address = 4,
    Parity = 5,
    Fill = 6,
    /// Fault 7 with the place of the first digit in no chart, counted from 0 at the top. The number
    /// is the low byte and the place the high one; no first digit is ever unreadable.
    Code1 = 0x0107,
    Code2 = 0x0207,
    Code3 = 0x0307,
    Code4 = 0x0407,
    Range = 8,
    Temperature = 9,
    Settings = 10,
    AskedAddress = 11,
    Sheet = 12,
    Full = 13,
    Form = 14,
    Short = 15,
    Poll = 16,
    Unknown = 17,
    Twice = 18,
    NoRow = 19,
    Timing = 20,
    Spoiled = 21,
    ForeignSample = 22,
    LargeRound = 23,
    LargeCount = 24,
    Unjoined = 25,
    OutsideProfile = 26,
    ProfileOf1800 = 27,
    RaiseOrReset = 28,
    Framing = 29,
    BlockCheck = 30,
    ItemAddress = 31,
    ItemText = 32,
    ItemShort = 33,
    LargeSite = 34,
    NoPlan = 35,
    PlanRefused = 36,
    Summary = 37,
    Order = 38,
}

impl Fault {
    /// Every fault, in the order of its number.
    pub const ALL: &'static [Fault] = &[
        Fault::Silent,
        Fault::Length,
        Fault::Start,
        Fault::Address,
        Fault::Parity,
        Fault::Fill,
        Fault::Code1,
        Fault::Code2,
        Fault::Code3,
        Fault::Code4,
        Fault::Range,
        Fault::Temperature,
        Fault::Settings,
        Fault::AskedAddress,
        Fault::Sheet,
        Fault::Full,
        Fault::Form,
        Fault::Short,
        Fault::Poll,
        Fault::Unknown,
        Fault::Twice,
        Fault::NoRow,
        Fault::Timing,
        Fault::Spoiled,
        Fault::ForeignSample,
        Fault::LargeRound,
        Fault::LargeCount,
        Fault::Unjoined,
        Fault::OutsideProfile,
        Fault::ProfileOf1800,
        Fault::RaiseOrReset,
        Fault::Framing,
        Fault::BlockCheck,
        Fault::ItemAddress,
        Fault::ItemText,
        Fault::ItemShort,
        Fault::LargeSite,
        Fault::NoPlan,
        Fault::PlanRefused,
        Fault::Summary,
        Fault::Order,
    ];

    /// The number the paper gives it.
    #[inline]
    pub const fn number(self) -> u8 {
        (self as u16 & 0xFF) as u8
    }

    /// The place of the unreadable digit beside fault 7, 0 beside any other.
    #[inline]
    pub const fn place(self) -> u8 {
        (self as u16 >> 8) as u8
    }

    /// Fault 7 at a place from 1 to 4.
    #[inline]
    pub fn code(place: u8) -> Option<Fault> {
        [Fault::Code1, Fault::Code2, Fault::Code3, Fault::Code4]
            .get(usize::from(place).wrapping_sub(1))
            .copied()
    }

    /// The fault of a number that came with a place: beside any number but 7 the place is 0.
    #[inline]
    pub fn from_parts(number: u8, place: u8) -> Option<Fault> {
        match number {
            7 => Fault::code(place),
            _ if place == 0 => Fault::from_number(number),
            _ => None,
        }
    }

    /// The fault of a number, if there is one.
    #[inline]
    pub fn from_number(number: u8) -> Option<Fault> {
        BY_NUMBER[usize::from(number)]
    }
}

/// Every byte's fault: 1 to 38 have one, any other byte has none.
static BY_NUMBER: [Option<Fault>; 256] = {
    let mut faults = [None; 256];
    let mut place = 0;
    while place < Fault::ALL.len() {
        let fault = Fault::ALL[place];
        faults[fault.number() as usize] = Some(fault);
        place += 1;
    }
    faults
};

/// What a call answers: its value, or the number of the first refusal that applies.
pub type Answer<T> = Result<T, Fault>;

/// A poll: the address asked, with the raise and reset bits.
#[derive(Clone, Copy, Debug, PartialEq, Eq)]
pub struct Poll {
    pub address: u16,
    pub raise: bool,
    pub reset: bool,
}

/// A temperature outcome; degrees are in tenths. A 40-bit reply has none.
#[derive(Clone, Copy, Debug, PartialEq, Eq)]
pub enum Temperature {
    Degrees(i16),
    Above,
    Below,
    Absent,
}

/// What an accepted reply says; the level is in its mode's unit.
///
/// Given to a writer, `Absent` asks for 40 bits and anything else for 56, and a level above its
/// mode's largest is the invalid level.
#[derive(Clone, Copy, Debug, PartialEq, Eq)]
pub struct Reading {
    pub level: u16,
    pub temperature: Temperature,
    pub alarm1: bool,
    pub alarm0: bool,
}

/// What a save is asked to put down, not yet checked.
#[derive(Clone, Copy, PartialEq, Eq)]
pub struct Entry<'a> {
    pub settings: u8,
    pub minute: u32,
    pub address: u16,
    /// Bits of the reply.
    pub count: usize,
    pub reply: &'a [u8],
}

/// A record found in a slot.
#[derive(Clone, Copy, PartialEq, Eq)]
pub struct Record {
    pub settings: u8,
    pub minute: u32,
    pub address: u16,
    /// Bits of the reply, at most 64.
    pub count: u8,
    /// The reply's bytes, as many as the count asks for; those past them are 0.
    pub reply: [u8; 8],
}

impl Record {
    /// The reply's own bytes.
    pub fn reply(&self) -> &[u8] {
        let bytes = usize::from(self.count).div_ceil(8).min(self.reply.len());
        &self.reply[..bytes]
    }
}

/// Shows what a record holds, or is to hold, with the reply's bytes in hexadecimal.
fn show_record(f: &mut fmt::Formatter, of: &str, entry: &Entry) -> fmt::Result {
    write!(
        f,
        "{of} {{ settings {}, minute {}, address {}, {} bits, {:02x?} }}",
        entry.settings, entry.minute, entry.address, entry.count, entry.reply
    )
}

impl fmt::Debug for Entry<'_> {
    fn fmt(&self, f: &mut fmt::Formatter) -> fmt::Result {
        show_record(f, "Entry", self)
    }
}

impl fmt::Debug for Record {
    fn fmt(&self, f: &mut fmt::Formatter) -> fmt::Result {
        let entry = Entry {
            settings: self.settings,
            minute: self.minute,
            address: self.address,
            count: usize::from(self.count),
            reply: &self.reply,
        };
        show_record(f, "Record", &entry)
    }
}

/// What a slot reads as.
#[derive(Clone, Copy, Debug, PartialEq, Eq)]
pub enum Slot {
    Blank,
    Spoiled,
    Foreign,
    Record(Record),
}

/// A good reading and the minute it was heard.
#[derive(Clone, Copy, Debug, PartialEq, Eq)]
pub struct Last {
    pub reading: Reading,
    pub minute: u32,
}

/// A row of the board. A free row may hold anything in the other fields until it is enrolled.
#[derive(Clone, Copy, Debug, Default, PartialEq, Eq)]
pub struct Row {
    pub in_use: bool,
    pub address: u16,
    pub settings: u8,
    pub last: Option<Last>,
    /// Number of the last fault, 0 for none.
    pub fault: u8,
    /// Place of the unreadable digit beside fault 7.
    pub place: u8,
    /// Faulty replies since the last good one or since enrolment, at most 65,535.
    pub faulty: u16,
    /// Minute of the latest hearing. A row with neither a reading nor a fault was never heard.
    pub heard: u32,
    /// Bits 0 and 1 the sensor profile, bit 2 the mark of a 6500; the rest says nothing.
    pub gauge: u8,
}

/// How a transmitter stands on the board, as looking it up answers it.
#[derive(Clone, Copy, Debug, PartialEq, Eq)]
pub struct Standing {
    pub settings: u8,
    pub last: Option<Last>,
    /// Number of the last fault, 0 for none.
    pub fault: u8,
    /// Place of the unreadable digit beside fault 7, 0 beside any other.
    pub place: u8,
    /// Faulty replies since the last good one or since enrolment, at most 65,535.
    pub faulty: u16,
    /// Minute of the latest hearing, good or faulty; none since enrolment.
    pub heard: Option<u32>,
    /// The sensor profile, 0 for none, and 4 more with the mark of a 6500.
    pub gauge: u8,
}

#[cfg(test)]
mod tests {
    use super::*;

    #[test]
    fn each_fault_has_its_number_and_no_other_byte_has_one() {
        let numbers: Vec<u8> = Fault::ALL.iter().map(|fault| fault.number()).collect();
        for number in 0..=u8::MAX {
            let fault = Fault::from_number(number);
            assert_eq!(
                fault.map(Fault::number),
                Some(number).filter(|n| numbers.contains(n))
            );
        }
        assert!(
            // Fault 7 stands there once for each place.
            numbers
                .windows(2)
                .all(|pair| pair[0] < pair[1] || pair == [7, 7]),
            "{numbers:?}"
        );
    }
}
