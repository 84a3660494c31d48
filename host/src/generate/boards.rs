//! Rows and calls of the board.

use super::{
    address, damage, good_reply, minute, reading, refused_address, refused_settings, reply_of,
    ReplyCase,
};
use crate::random::Random;
use crate::reading::board::profile;
use crate::types::{Last, Reading, Row, Temperature, ROWS};

/// One call of the board.
#[derive(Clone, Copy, Debug, PartialEq, Eq)]
pub enum BoardCall {
    Enrol {
        settings: u8,
        address: u16,
        gauge: u8,
    },
    Hear {
        minute: u32,
        reply: ReplyCase,
    },
    Remove {
        address: u16,
    },
    LookUp {
        address: u16,
    },
    /// A row's poll into so many bytes, at most 4.
    Poll {
        address: u16,
        raise: u8,
        reset: u8,
        room: usize,
    },
}

/// A gauge: none, one of those that say something, or any byte.
fn gauge(random: &mut Random) -> u8 {
    match random.below(4) {
        0 => 0,
        1 | 2 => random.below(8) as u8,
        _ => random.byte(),
    }
}

/// Raise or reset: asked for by 1 or by any other number, or not.
fn flag(random: &mut Random) -> u8 {
    match random.below(4) {
        0 => 1,
        1 => random.byte(),
        _ => 0,
    }
}

/// A reply to a row: often with a temperature at an end of the row's profile, or just past it.
fn reply_to(random: &mut Random, row: Option<Row>, address: u16) -> ReplyCase {
    let settings = row.map_or(0, |row| row.settings) & 15;
    match row.and_then(|row| profile(row.gauge)) {
        Some(range) if random.coin() => {
            let (lowest, highest) = range.into_inner();
            let end = if random.coin() { lowest } else { highest };
            let reading = Reading {
                temperature: Temperature::Degrees(end + random.below(3) as i16 - 1),
                ..reading(random, settings)
            };
            reply_of(settings, address, &reading)
        }
        _ => good_reply(random, settings, address),
    }
}

/// Rows to start from: none, a few, thirty or more; blank as a host would lend them, crowded, or
/// hostile.
pub fn rows(random: &mut Random) -> Vec<Row> {
    let count = match random.below(8) {
        0 => random.below(3),
        1 | 2 => 31 + random.below(6),
        3 | 4 => 30,
        _ => random.below(31),
    };
    let kind = random.below(8);
    let pool = 1 + random.below(40);
    let row = |place: usize| match kind {
        0 | 1 => Row::default(),
        2 | 3 => crowded_row(random, place),
        _ => hostile_row(random, pool),
    };
    let mut rows: Vec<Row> = (0..count).map(row).collect();
    if !random.one_in(6) {
        keep(&mut rows);
    }
    if random.one_in(8) && rows.len() > 1 {
        disturb(random, &mut rows);
    }
    rows
}

/// Puts rows out of order, if only just: two exchanged, one with its neighbour's address, or a hole.
fn disturb(random: &mut Random, rows: &mut [Row]) {
    let used = rows.iter().take(ROWS).filter(|row| row.in_use).count();
    let at = random.below(used.clamp(1, rows.len() - 1));
    match random.below(3) {
        0 => rows.swap(at, at + 1),
        1 => rows[at + 1].address = rows[at].address,
        _ => rows[at].in_use = false,
    }
}

/// Keeps the rows that count in order: of two with one address the second is set free, what stands
/// in it stays, and so it does in the other free rows.
fn keep(rows: &mut [Row]) {
    let count = rows.len().min(ROWS);
    let board = &mut rows[..count];
    board.sort_by_key(|row| (!row.in_use, row.address));
    for at in 1..count {
        if board[..at]
            .iter()
            .any(|row| row.in_use && row.address == board[at].address)
        {
            board[at].in_use = false;
        }
    }
    board.sort_by_key(|row| !row.in_use);
}

/// A row of a board that is all but full, with free rows past the thirtieth.
fn crowded_row(random: &mut Random, place: usize) -> Row {
    if place >= ROWS || random.one_in(20) {
        return Row::default();
    }
    Row {
        in_use: true,
        address: place as u16,
        settings: random.below(16) as u8,
        last: None,
        fault: 0,
        place: 0,
        faulty: 0,
        heard: 0,
        gauge: gauge(random),
    }
}

/// Any row: in use or free with something in it, addresses held twice, refused settings.
fn hostile_row(random: &mut Random, pool: usize) -> Row {
    let settings = if random.one_in(6) {
        refused_settings(random)
    } else {
        random.below(16) as u8
    };
    let address = match random.below(16) {
        0 => refused_address(random),
        1 => address(random),
        _ => random.below(pool) as u16,
    };
    let last = random.coin().then(|| Last {
        reading: reading(random, settings),
        minute: minute(random),
    });
    Row {
        in_use: !random.one_in(4),
        address,
        settings,
        last,
        fault: match random.below(4) {
            0 => random.byte(),
            1 => 7,
            _ => 0,
        },
        place: random.byte(),
        faulty: if random.coin() {
            u16::MAX - random.below(3) as u16
        } else {
            random.below(5) as u16
        },
        heard: minute(random),
        gauge: gauge(random),
    }
}

/// A call about rows that say this, so that replies often fit the row that is asked.
pub fn board_call(random: &mut Random, rows: &[Row]) -> BoardCall {
    let known = random.choose(rows).copied();
    let address = match known {
        Some(row) if row.in_use && !random.one_in(4) => row.address,
        _ if random.one_in(16) => refused_address(random),
        _ => random.below(40) as u16,
    };
    match random.below(8) {
        0 | 1 => BoardCall::Enrol {
            settings: if random.one_in(10) {
                refused_settings(random)
            } else {
                random.below(16) as u8
            },
            address,
            gauge: gauge(random),
        },
        2 if random.coin() => BoardCall::Remove { address },
        2 => BoardCall::LookUp { address },
        3 if random.coin() => BoardCall::LookUp { address },
        3 => BoardCall::Poll {
            address,
            raise: flag(random),
            reset: flag(random),
            room: random.below(5),
        },
        _ => {
            let mut reply = reply_to(random, known, address.min(999));
            if random.coin() {
                damage(random, &mut reply);
            }
            if !random.one_in(8) {
                reply.address = address;
            }
            BoardCall::Hear {
                minute: minute(random),
                reply,
            }
        }
    }
}

#[cfg(test)]
mod tests {
    use super::*;
    use crate::reading::board::{enrol, hear, look_up, poll, remove};

    /// Every answer that the paper gives each call is reached, many times.
    #[test]
    fn every_outcome_is_reached() {
        let mut random = Random::new(crate::random::SEED, 0);
        let mut seen = [[0u32; 39]; 5];
        for _ in 0..1_800 {
            let mut rows = rows(&mut random);
            for _ in 0..100 {
                let (call, answer) = match board_call(&mut random, &rows) {
                    BoardCall::Enrol {
                        settings,
                        address,
                        gauge,
                    } => (0, enrol(&mut rows, settings, address, gauge)),
                    BoardCall::Hear { minute, reply } => {
                        let (address, count) = (reply.address, reply.count);
                        (1, hear(&mut rows, minute, address, count, reply.reply()))
                    }
                    BoardCall::Remove { address } => (2, remove(&mut rows, address)),
                    BoardCall::LookUp { address } => (3, look_up(&rows, address).map(|_| ())),
                    BoardCall::Poll {
                        address,
                        raise,
                        reset,
                        room,
                    } => {
                        let out = &mut [0; 4][..room];
                        (4, poll(&rows, address, raise, reset, out))
                    }
                };
                let number = answer.err().map_or(0, |fault| fault.number());
                seen[call][usize::from(number)] += 1;
            }
        }
        let answers: [&[usize]; 5] = [
            &[0, 10, 11, 18, 19, 27, 38],
            &[0, 1, 2, 3, 4, 5, 6, 7, 8, 9, 10, 11, 14, 17, 26, 38],
            &[0, 11, 17, 38],
            &[0, 11, 17, 38],
            &[0, 11, 15, 17, 28, 38],
        ];
        for (call, answers) in answers.iter().enumerate() {
            for &number in *answers {
                assert!(seen[call][number] >= 50, "call {call}, {number}: {seen:?}");
            }
            let others = seen[call].iter().filter(|&&times| times > 0).count();
            assert_eq!(others, answers.len(), "call {call}: {seen:?}");
        }
    }
}
