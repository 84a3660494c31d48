//! A round run by the recorder, answer by answer: of what is lent to a call, the idle samples before
//! an answer are passed over at once, and what is left is heard as a whole.

use super::frame::write_poll;
use super::{board, drawings, lines, IndependentReading};
use crate::calls::Pollings;
use crate::types::drawings::Drawing;
use crate::types::lines::SoFar;
use crate::types::pollings::{Begun, Drew, Pace, Polling, Settled};
use crate::types::rounds::{Polled, MOST_REPLIES};
use crate::types::{Fault, Poll, Row, LARGEST_ADDRESS};

const IDLE: u8 = 0;
const FOREIGN: u8 = Fault::ForeignSample.number();

impl Pollings for IndependentReading {
    // Kept out of line, as calls of the archive are.
    #[inline(never)]
    fn polling_begin(&self, rows: &[Row], minute: u32) -> Begun {
        begin(rows, minute)
    }

    #[inline(never)]
    fn polling_draw(&self, polling: &mut Polling, pace: &Pace, out: &mut [u8]) -> Drew {
        draw(polling, pace, out)
    }

    #[inline(never)]
    fn polling_hear(
        &self,
        polling: &mut Polling,
        pace: &Pace,
        minute: u32,
        samples: &[u8],
    ) -> Settled {
        hear(polling, pace, minute, samples)
    }
}

/// Begins a round: a reply for each row in use, in the board's order. Refusal: 38.
pub fn begin(rows: &[Row], minute: u32) -> Begun {
    let mut begun = Begun::default();
    if let Err(fault) = board::kept(rows) {
        begun.number = fault.number();
        return begun;
    }
    let round = &mut begun.polling.round;
    for row in board::board(rows).iter().filter(|row| row.in_use) {
        round.replies[round.count] = Polled {
            minute,
            address: row.address,
            settings: row.settings,
            ..Polled::default()
        };
        round.count += 1;
    }
    begun
}

/// Whether every timing number is one that may be asked for.
fn good(pace: &Pace) -> bool {
    (1..=1_000).contains(&pace.low)
        && (1..=10_000).contains(&pace.still)
        && pace.delay <= 1_000_000
        && (1..=pace.most).contains(&pace.least)
        && pace.most <= 1_000
        && (1..=10_000).contains(&pace.gap)
        && (1..=1_000_000).contains(&pace.wait)
        && (pace.wait..=10_000_000).contains(&pace.longest)
        && (1..=9).contains(&pace.tries)
}

fn is_over(polling: &Polling) -> bool {
    polling.round.count > MOST_REPLIES || usize::from(polling.at) >= polling.round.count
}

/// The poll of an address; none above 999.
fn poll_of(address: u16) -> Option<[u8; 2]> {
    let mut bytes = [0; 2];
    let poll = Poll {
        address,
        raise: false,
        reset: false,
    };
    write_poll(&poll, &mut bytes).is_ok().then_some(bytes)
}

/// The samples of delay and poll of the transmitter whose turn it is.
fn whole(polling: &Polling, pace: &Pace) -> u32 {
    let reply = &polling.round.replies[usize::from(polling.at)];
    match reply.address {
        0..=LARGEST_ADDRESS => pace.delay + 16 * (pace.low + pace.still),
        _ => pace.delay,
    }
}

/// Makes the state of a round that goes on the one that it stands for.
fn mean(polling: &mut Polling, pace: &Pace) {
    if polling.listening != 0 {
        polling.lines = lines::meant(polling.lines);
    } else {
        polling.lines = SoFar::default();
        if polling.passed < whole(polling, pace) {
            return;
        }
        polling.passed = 0;
    }
    polling.listening = 1;
}

/// Draws delay and poll from where the last call ended, as much as there is or fits. Refusal: 20.
pub fn draw(polling: &mut Polling, pace: &Pace, out: &mut [u8]) -> Drew {
    let mut told = Drew::default();
    if !good(pace) {
        told.number = Fault::Timing.number();
    } else if is_over(polling) {
        told.over = 1;
    } else {
        mean(polling, pace);
        if polling.listening == 0 {
            told.count = fill(polling, pace, out);
            polling.passed += told.count as u32;
            mean(polling, pace);
        }
    }
    told
}

/// Fills the output with what is left of the delay, and of the poll; answers how much that was.
fn fill(polling: &Polling, pace: &Pace, out: &mut [u8]) -> usize {
    let (delay, passed) = (pace.delay as usize, polling.passed as usize);
    let still = delay.saturating_sub(passed).min(out.len());
    let (first, rest) = out.split_at_mut(still);
    first.fill(IDLE);
    let reply = &polling.round.replies[usize::from(polling.at)];
    let drawn = poll_of(reply.address).and_then(|message| {
        let drawing = Drawing {
            low: pace.low as usize,
            still: pace.still as usize,
            count: 16,
            message: &message,
        };
        drawings::draw(&drawing, passed.saturating_sub(delay), rest).ok()
    });
    still + drawn.unwrap_or(0)
}

/// How a try is settled.
enum Outcome {
    /// So many bits.
    Message(u8, [u8; 8]),
    /// 0 for silence, 21 or 22.
    Nothing(u8),
}

/// Hears samples up to the one that settles a try. Refusal: 20.
pub fn hear(polling: &mut Polling, pace: &Pace, minute: u32, samples: &[u8]) -> Settled {
    let mut told = Settled::default();
    if !good(pace) {
        told.number = Fault::Timing.number();
    } else if is_over(polling) {
        told.over = 1;
    } else {
        mean(polling, pace);
        if polling.listening != 0 {
            let (taken, outcome) = listen(polling, pace, samples);
            told.taken = taken;
            if let Some(outcome) = outcome {
                settle(polling, &mut told, pace, minute, outcome);
            }
        }
    }
    told
}

/// Takes samples, and says how many and how that settled the try.
fn listen(polling: &mut Polling, pace: &Pace, samples: &[u8]) -> (usize, Option<Outcome>) {
    // A limit that is reached already is met by the next sample.
    let left = |limit: u32| limit.saturating_sub(polling.passed).max(1) as usize;
    let (wait, longest) = (left(pace.wait), left(pace.longest));
    let mut idle = 0;
    if polling.lines == SoFar::default() && samples.first() == Some(&IDLE) {
        idle = lines::run_of(&samples[..samples.len().min(wait)]);
        if idle == wait {
            return (wait, Some(Outcome::Nothing(0)));
        }
    }
    let heard = lines::hear(
        polling.lines,
        pace.times(),
        &samples[idle..samples.len().min(longest)],
    );
    polling.lines = heard.so_far;
    let taken = idle + heard.taken;
    let outcome = match (heard.count, heard.number) {
        (0, 0) if taken < longest => {
            polling.passed = polling.passed.saturating_add(taken as u32);
            None
        }
        (0, 0) => Some(Outcome::Nothing(match heard.so_far.fault {
            FOREIGN => FOREIGN,
            _ => Fault::Spoiled.number(),
        })),
        (0, number) => Some(Outcome::Nothing(number)),
        (count, _) => Some(Outcome::Message(count, heard.message)),
    };
    (taken, outcome)
}

/// The reply stands, or the same transmitter is polled again.
fn settle(polling: &mut Polling, told: &mut Settled, pace: &Pace, minute: u32, outcome: Outcome) {
    told.reply = polling.at;
    polling.lines = SoFar::default();
    (polling.passed, polling.listening) = (0, 0);
    let (count, bytes) = match outcome {
        Outcome::Message(count, bytes) => (count, bytes),
        Outcome::Nothing(number) => {
            told.number = number;
            if u32::from(polling.tried) + 1 < pace.tries {
                polling.tried += 1;
                return;
            }
            (0, [0; 8])
        }
    };
    let reply = &mut polling.round.replies[usize::from(polling.at)];
    reply.minute = minute;
    reply.count = count.into();
    reply.bytes = count.div_ceil(8).into();
    reply.reply = bytes;
    polling.tried = 0;
    polling.at += 1;
    told.answered = 1;
    told.over = is_over(polling).into();
}
