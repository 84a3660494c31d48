//! The board of last good readings, over lent rows.

use super::frame::{read_word, write_poll};
use super::word::pack;
use crate::types::{
    Answer, Fault, Last, Poll, Row, Standing, Temperature, COPPER, LARGEST_ADDRESS,
    LARGEST_SETTINGS, MARK_6500, PLATINUM, ROWS, TYPE_1800,
};
use std::ops::RangeInclusive;

/// The rows that count: those past the thirtieth are never read or written.
pub(super) fn board(rows: &[Row]) -> &[Row] {
    &rows[..rows.len().min(ROWS)]
}

/// Refuses by 38 rows that are not kept in order: those in use first, by strictly rising address.
pub(super) fn kept(rows: &[Row]) -> Answer<()> {
    let used = board(rows).iter().filter(|row| row.in_use).count();
    let (front, behind) = board(rows).split_at(used);
    let rising = front.windows(2).all(|two| two[0].address < two[1].address);
    if rising && behind.iter().all(|row| !row.in_use) {
        Ok(())
    } else {
        Err(Fault::Order)
    }
}

/// The row in use that holds an address.
fn place(rows: &[Row], address: u16) -> Option<usize> {
    let held = |row: &Row| row.in_use && row.address == address;
    board(rows).iter().position(held)
}

/// The row of an address, to change. Refusal: 17.
fn held(rows: &mut [Row], address: u16) -> Answer<&mut Row> {
    let place = place(rows, address).ok_or(Fault::Unknown)?;
    rows.get_mut(place).ok_or(Fault::Unknown)
}

/// The tenths of a degree Fahrenheit that the profile of a gauge allows, ends allowed; none where
/// it names no profile.
pub fn profile(gauge: u8) -> Option<RangeInclusive<i16>> {
    match gauge & 3 {
        COPPER => Some(-1_000..=4_000),
        PLATINUM => Some(-2_340..=5_020),
        _ => None,
    }
}

/// Whether a temperature is outside the profile of its row. A row of type 1800 is not checked, nor
/// is a reply with no temperature.
fn outside(row: &Row, temperature: Temperature) -> bool {
    match (profile(row.gauge), temperature) {
        (Some(range), Temperature::Degrees(tenths)) if row.settings & TYPE_1800 == 0 => {
            !range.contains(&tenths)
        }
        _ => false,
    }
}

/// Enrols a transmitter: the first free row is used up, and turned to the front of the rows in use
/// with a greater address. Refusals: 38, 10, 11, 27, 18, 19.
pub fn enrol(rows: &mut [Row], settings: u8, address: u16, gauge: u8) -> Answer<()> {
    kept(rows)?;
    if settings > LARGEST_SETTINGS {
        return Err(Fault::Settings);
    }
    if address > LARGEST_ADDRESS {
        return Err(Fault::AskedAddress);
    }
    if settings & TYPE_1800 != 0 && profile(gauge).is_some() {
        return Err(Fault::ProfileOf1800);
    }
    if place(rows, address).is_some() {
        return Err(Fault::Twice);
    }
    let free = board(rows).iter().position(|row| !row.in_use);
    let free = free.ok_or(Fault::NoRow)?;
    rows[free] = Row {
        in_use: true,
        address,
        settings,
        last: None,
        fault: 0,
        place: 0,
        faulty: 0,
        heard: 0,
        gauge,
    };
    let smaller = rows[..free].iter().filter(|row| row.address < address);
    let at = smaller.count();
    rows[at..=free].rotate_right(1);
    Ok(())
}

/// Hears a reply to a poll of `address`. Refusals: 38, 11, 14, 17, 10, then 1 to 9, 26.
///
/// A good reply sets reading, minute and fault 0; the faults 1 to 9, and 26 for a temperature
/// outside the row's profile, set the row's fault, 7 with the place of the unreadable digit, and
/// leave its last good reading as it is. Both are heard: the row has this minute, and its count of
/// faulty replies starts again or grows by one, up to 65,535.
pub fn hear(rows: &mut [Row], minute: u32, address: u16, count: usize, reply: &[u8]) -> Answer<()> {
    kept(rows)?;
    if address > LARGEST_ADDRESS {
        return Err(Fault::AskedAddress);
    }
    let word = pack(count, reply)?;
    let row = held(rows, address)?;
    if row.settings > LARGEST_SETTINGS {
        return Err(Fault::Settings);
    }
    let answer = match read_word(row.settings, address, count, word) {
        Ok(reading) if outside(row, reading.temperature) => Err(Fault::OutsideProfile),
        answer => answer,
    };
    row.heard = minute;
    match answer {
        Ok(reading) => {
            row.last = Some(Last { reading, minute });
            row.fault = 0;
            row.place = 0;
            row.faulty = 0;
            Ok(())
        }
        Err(fault) => {
            row.fault = fault.number();
            row.place = fault.place();
            row.faulty = row.faulty.saturating_add(1);
            Err(fault)
        }
    }
}

/// Removes a transmitter: its row is cleared and turned behind the others in use. Refusals: 38, 11,
/// 17.
pub fn remove(rows: &mut [Row], address: u16) -> Answer<()> {
    kept(rows)?;
    if address > LARGEST_ADDRESS {
        return Err(Fault::AskedAddress);
    }
    let at = place(rows, address).ok_or(Fault::Unknown)?;
    let used = board(rows).iter().filter(|row| row.in_use).count();
    rows[at] = Row::default();
    rows[at..used].rotate_left(1);
    Ok(())
}

/// Looks a transmitter up. Refusals: 38, 11, 17.
pub fn look_up(rows: &[Row], address: u16) -> Answer<Standing> {
    kept(rows)?;
    if address > LARGEST_ADDRESS {
        return Err(Fault::AskedAddress);
    }
    let place = place(rows, address).ok_or(Fault::Unknown)?;
    let row = rows.get(place).ok_or(Fault::Unknown)?;
    Ok(Standing {
        settings: row.settings,
        last: row.last,
        fault: row.fault,
        place: if row.fault == 7 { row.place } else { 0 },
        faulty: row.faulty,
        heard: (row.last.is_some() || row.fault != 0).then_some(row.heard),
        gauge: profile(row.gauge).map_or(0, |_| row.gauge & 3) + (row.gauge & MARK_6500),
    })
}

/// Writes a row's poll into the first 2 bytes. Raise or reset goes to a marked row only, and never
/// both at once. Refusals: 38, 11, 17, 28, 15.
pub fn poll(rows: &[Row], address: u16, raise: u8, reset: u8, out: &mut [u8]) -> Answer<()> {
    kept(rows)?;
    if address > LARGEST_ADDRESS {
        return Err(Fault::AskedAddress);
    }
    let place = place(rows, address).ok_or(Fault::Unknown)?;
    let (raise, reset) = (raise != 0, reset != 0);
    let marked = rows[place].gauge & MARK_6500 != 0;
    if (raise && reset) || ((raise || reset) && !marked) {
        return Err(Fault::RaiseOrReset);
    }
    let poll = Poll {
        address,
        raise,
        reset,
    };
    write_poll(&poll, out).map(|_| ())
}
