//! Rounds that a core runs itself, compared call for call and in several batchings; and whole rounds
//! with made-up transmitters, which a core is held to without another.

use super::lines::in_runs;
use super::{check, in_parts, same, Check, Difference, Hex, Verdict};
use crate::calls::Pollings;
use crate::generate::{self, Sensed};
use crate::random::Random;
use crate::reading::frame::write_poll;
use crate::reading::{board, rounds};
use crate::types::pollings::{Drew, Left, Pace, Polling, Settled};
use crate::types::rounds::{Polled, Rounded};
use crate::types::{Poll, Row, BLANK, LARGEST_ADDRESS, SLOT};

/// What out-buffers hold before a call, so that a byte changed too many shows.
const BEFORE: u8 = 0xA5;

/// The comparisons of cores that run rounds.
pub fn checks<L: Pollings, R: Pollings>() -> Vec<Check<L, R>> {
    vec![
        check("polling, boards begun", |l, r, plan| {
            boards(l, r, plan.seed, plan.pollings)
        }),
        check("polling, all short answers", |l, r, _| short_answers(l, r)),
        check("polling, timing numbers", |l, r, _| timing_numbers(l, r)),
        check("polling, states of every kind", |l, r, plan| {
            states(l, r, plan.seed, plan.pollings)
        }),
        check("polling, rounds in batches", |l, r, plan| {
            batches(l, r, plan.seed, plan.polled_rounds / 2)
        }),
        check("polling, each transmitter, left", |l, _, plan| {
            transmitters(l, plan.seed, plan.polled_rounds)
        }),
        check("polling, each transmitter, right", |_, r, plan| {
            transmitters(r, plan.seed, plan.polled_rounds)
        }),
    ]
}

/// A call's words: the pace, the state, and whose turn it is.
fn words(polling: &Polling, pace: &Pace) -> String {
    let Polling {
        round,
        lines,
        passed,
        at,
        tried,
        listening,
    } = polling;
    let turn = round.replies.get(usize::from(*at));
    let count = round.count;
    format!(
        "{pace:?}, at {at} of {count}, tried {tried}, listening {listening}, passed {passed}, \
         {lines:?}, turn of {turn:?}"
    )
}

/// Draws with both, into as many bytes as there is room for in a larger buffer: answer, state and output
/// after it.
fn draw<L: Pollings, R: Pollings>(
    left: &L,
    right: &R,
    polling: &Polling,
    pace: &Pace,
    out: &mut [u8],
) -> Result<Left<Drew>, Difference> {
    let room = out.len();
    let (mut drawn, mut other) = (vec![BEFORE; room + 4], vec![BEFORE; room + 4]);
    let drew = left.drawn_of(polling, pace, &mut drawn[..room]);
    let drew_other = right.drawn_of(polling, pace, &mut other[..room]);
    let asked = || format!("drawing into {room} bytes, {}", words(polling, pace));
    same(drew, drew_other, asked)?;
    same(Hex(&drawn), Hex(&other), asked)?;
    out.copy_from_slice(&drawn[..room]);
    Ok(drew)
}

/// Hears samples with both: answer and state after it.
fn hear<L: Pollings, R: Pollings>(
    left: &L,
    right: &R,
    polling: &Polling,
    pace: &Pace,
    minute: u32,
    samples: &[u8],
) -> Result<Left<Settled>, Difference> {
    let told = left.heard_of(polling, pace, minute, samples);
    same(told, right.heard_of(polling, pace, minute, samples), || {
        let runs = in_runs(samples);
        format!("hearing {runs} at {minute}, {}", words(polling, pace))
    })?;
    Ok(told)
}

/// Rounds begun from boards of any rows.
fn boards<L: Pollings, R: Pollings>(left: &L, right: &R, seed: u64, count: usize) -> Verdict {
    const PART: usize = 500;
    in_parts(count.div_ceil(PART), |part| {
        let mut random = Random::new(seed, part as u64);
        for _ in 0..PART {
            let rows = generate::rows(&mut random);
            let minute = generate::minute(&mut random);
            let begun = left.polling_begin(&rows, minute);
            same(begun, right.polling_begin(&rows, minute), || {
                format!("a round begun at {minute} from {rows:?}")
            })?;
        }
        Ok(PART as u64)
    })
}

/// A round of two transmitters whose first has just been polled.
fn just_polled() -> Polling {
    let mut polling = Polling {
        listening: 1,
        ..Polling::default()
    };
    polling.round.count = 2;
    for (reply, address) in polling.round.replies.iter_mut().zip([7, 310]) {
        reply.address = address;
        reply.settings = 1;
    }
    polling
}

/// Every stream of six samples of five kinds after a poll, by short paces: in one call, and sample by
/// sample.
fn short_answers<L: Pollings, R: Pollings>(left: &L, right: &R) -> Verdict {
    const KINDS: [u8; 5] = [0, 1, 2, 3, 200];
    const LONGEST: u32 = 6;
    // Least, most, gap, wait, longest, tries.
    const PACES: [[u32; 6]; 6] = [
        [1, 1, 1, 2, 4, 1],
        [1, 2, 2, 3, 5, 2],
        [1, 1, 3, 1, 6, 1],
        [2, 3, 2, 4, 4, 3],
        [1, 2, 1, 6, 6, 2],
        [1, 3, 4, 2, 9, 1],
    ];
    in_parts(PACES.len() * KINDS.len(), |part| {
        let [least, most, gap, wait, longest, tries] = PACES[part % PACES.len()];
        let pace = Pace {
            low: 1,
            still: 1,
            delay: 0,
            least,
            most,
            gap,
            wait,
            longest,
            tries,
        };
        let start = just_polled();
        let streams = KINDS.len().pow(LONGEST - 1);
        let mut samples = [KINDS[part / PACES.len()]; LONGEST as usize];
        for stream in 0..streams {
            let mut rest = stream;
            for sample in &mut samples[1..] {
                *sample = KINDS[rest % KINDS.len()];
                rest /= KINDS.len();
            }
            let whole = hear(left, right, &start, &pace, 5, &samples)?;
            let mut now = start;
            for (n, sample) in samples[..whole.taken.min(samples.len())].iter().enumerate() {
                let asked = || {
                    let runs = in_runs(&samples);
                    format!("sample {n} of {runs} by itself, {pace:?}")
                };
                let told = hear(left, right, &now, &pace, 5, &[*sample])?;
                let last = n + 1 == whole.taken;
                let expected = match last {
                    true => (1, whole.reply, whole.answered, whole.over, whole.number),
                    false => (1, 0, 0, 0, 0),
                };
                let event = (
                    told.taken,
                    told.reply,
                    told.answered,
                    told.over,
                    told.number,
                );
                same(event, expected, asked)?;
                now = told.polling;
            }
            same(now, whole.polling, || {
                format!("{} one by one, {pace:?}", in_runs(&samples))
            })?;
        }
        Ok(streams as u64 * u64::from(LONGEST + 1))
    })
}

/// Timing numbers about every end of their ranges, one or two at a time, and those that a narrower
/// number would take for good ones; in states of every kind.
fn timing_numbers<L: Pollings, R: Pollings>(left: &L, right: &R) -> Verdict {
    const NUMBERS: [u32; 28] = [
        0,
        1,
        2,
        3,
        8,
        9,
        10,
        11,
        49,
        50,
        51,
        257,
        999,
        1_000,
        1_001,
        9_999,
        10_000,
        10_001,
        65_537,
        999_999,
        1_000_000,
        1_000_001,
        9_999_999,
        10_000_000,
        10_000_001,
        (1 << 24) + 2,
        (1 << 31) + 2,
        u32::MAX,
    ];
    let good = Pace {
        low: 2,
        still: 3,
        delay: 4,
        least: 2,
        most: 3,
        gap: 4,
        wait: 10,
        longest: 50,
        tries: 2,
    };
    let drawing = Polling {
        listening: 0,
        ..just_polled()
    };
    let mut strange = just_polled();
    strange.lines.line = 7;
    let over = Polling {
        at: 2,
        listening: 9,
        ..strange
    };
    in_parts(NUMBERS.len(), |part| {
        let one = NUMBERS[part];
        let mut asked = 0;
        for which in 0..9 {
            for other in NUMBERS {
                for next in [which, (which + 1) % 9] {
                    let mut pace = good;
                    *number(&mut pace, next) = other;
                    *number(&mut pace, which) = one;
                    for polling in [drawing, just_polled(), strange, over] {
                        draw(left, right, &polling, &pace, &mut [0; 90])?;
                        hear(left, right, &polling, &pace, 5, &[0, 2, 2, 0, 0, 0, 0, 0])?;
                        asked += 2;
                    }
                }
            }
        }
        Ok(asked)
    })
}

/// The timing numbers in their order.
fn number(pace: &mut Pace, which: usize) -> &mut u32 {
    match which {
        0 => &mut pace.low,
        1 => &mut pace.still,
        2 => &mut pace.delay,
        3 => &mut pace.least,
        4 => &mut pace.most,
        5 => &mut pace.gap,
        6 => &mut pace.wait,
        7 => &mut pace.longest,
        _ => &mut pace.tries,
    }
}

/// States of every kind, handed in with any pace, some room and a few samples.
fn states<L: Pollings, R: Pollings>(left: &L, right: &R, seed: u64, count: usize) -> Verdict {
    const PART: usize = 500;
    in_parts(count.div_ceil(PART), |part| {
        let mut random = Random::new(seed, part as u64);
        for _ in 0..PART {
            let pace = match random.below(8) {
                0 => generate::bad_pace(&mut random),
                1..=4 => generate::quick_pace(&mut random),
                _ => generate::pace(&mut random),
            };
            let polling = generate::polling(&mut random, &pace);
            let room = [0, 1, random.below(40), random.below(3_000)][random.below(4)];
            draw(left, right, &polling, &pace, &mut vec![0; room])?;
            let samples = match random.one_in(8) {
                true => Vec::new(),
                false => generate::few_samples(&mut random, &polling, &pace),
            };
            let minute = generate::minute(&mut random);
            hear(left, right, &polling, &pace, minute, &samples)?;
        }
        Ok(2 * PART as u64)
    })
}

/// What one try came to: what was drawn for it, and what was told as it was settled.
#[derive(Clone, Debug, PartialEq, Eq)]
struct Try {
    drawn: Vec<u8>,
    /// Samples taken after the poll.
    taken: usize,
    reply: u16,
    answered: u8,
    over: u8,
    number: u8,
    /// The minute of the call that settled it.
    minute: u32,
}

/// Runs a round to its end by these calls, in batches of any size, with what the lines bring after each
/// poll. Between the calls that go on there are some that have nothing to do.
fn run(
    random: &mut Random,
    pace: &Pace,
    start: &Polling,
    ticks: bool,
    comes: impl Fn(u16, usize) -> Sensed,
    mut draw: impl FnMut(&Polling, &mut [u8]) -> Result<Left<Drew>, Difference>,
    mut hear: impl FnMut(&Polling, u32, &[u8]) -> Result<Left<Settled>, Difference>,
) -> Result<(Vec<Try>, Polling), Difference> {
    let (mut now, mut minute, mut all) = (*start, 1_000, 0);
    let (mut tries, mut drawn, mut taken) = (Vec::new(), Vec::new(), 0);
    let (mut at, mut tried) = (start.at, 0);
    let mut sensed = comes(at, tried);
    let longest = [2, 9, 64, 2_000][random.below(4)];
    let bound = pace.bound(start.round.count);
    loop {
        let (room, idle) = (1 + random.below(longest), random.one_in(8));
        let mut out = vec![BEFORE; if idle { 0 } else { room }];
        let drew = draw(&now, &mut out)?;
        let asked = || format!("drawing into {} bytes, {}", out.len(), words(&now, pace));
        same(drew.number, 0, asked)?;
        same(drew.count <= out.len(), true, asked)?;
        if drew.over != 0 {
            return Ok((tries, drew.polling));
        }
        drawn.extend_from_slice(&out[..drew.count]);
        now = drew.polling;
        if drew.count > 0 || idle {
            // While it draws nothing is heard.
            if now.listening == 0 && random.one_in(4) {
                let told = hear(&now, minute, &[1, 0, 2, 3])?;
                let nothing = Left {
                    polling: now,
                    told: Settled::default(),
                };
                same(told, nothing, || {
                    format!("hearing while it draws, {}", words(&now, pace))
                })?;
            }
            all += drew.count;
            same(all <= bound, true, || format!("no end, {pace:?}"))?;
            continue;
        }
        let batch = sensed.batch(taken, random.below(longest + 1));
        let told = hear(&now, minute, &batch)?;
        let asked = || {
            let runs = in_runs(&batch);
            format!("hearing {runs} of {sensed:?}, {}", words(&now, pace))
        };
        same(told.taken <= batch.len(), true, asked)?;
        taken += told.taken;
        all += told.taken;
        let settled = told.polling.listening == 0;
        // Only a sample settles anything.
        same(told.taken > 0 || !settled, true, asked)?;
        if !settled {
            same(told.taken, batch.len(), asked)?;
            let nothing = (told.reply, told.answered, told.over, told.number);
            same(nothing, (0, 0, 0, 0), asked)?;
        }
        same(all <= bound, true, || format!("no end, {pace:?}"))?;
        now = told.polling;
        if settled {
            tries.push(Try {
                drawn: std::mem::take(&mut drawn),
                taken: std::mem::take(&mut taken),
                reply: told.reply,
                answered: told.answered,
                over: told.over,
                number: told.number,
                minute,
            });
            tried = if now.at == at { tried + 1 } else { 0 };
            at = now.at;
            sensed = comes(at, tried);
        }
        minute += u32::from(ticks);
    }
}

/// What the lines bring after each poll of a round, by the transmitter and the try.
fn coming(
    random: &mut Random,
    pace: &Pace,
    count: usize,
    kind: impl Fn(&mut Random, &Pace) -> Sensed,
) -> impl Fn(u16, usize) -> Sensed {
    let tries = pace.tries as usize;
    let all: Vec<Sensed> = (0..count * tries).map(|_| kind(random, pace)).collect();
    move |at, tried| {
        let place = usize::from(at) * tries + tried.min(tries - 1);
        let nothing = Sensed {
            samples: Vec::new(),
            then: 0,
            taken: 0,
            bits: Vec::new(),
            number: 0,
        };
        all.get(place).cloned().unwrap_or(nothing)
    }
}

/// Whole rounds from any state on, in three batchings, with answers and noise of every kind.
fn batches<L: Pollings, R: Pollings>(left: &L, right: &R, seed: u64, count: usize) -> Verdict {
    in_parts(count, |part| {
        let mut random = Random::new(seed, part as u64);
        let pace = generate::quick_pace(&mut random);
        let mut start = generate::polling(&mut random, &pace);
        // Begun as a board would, or anywhere in a state of any kind.
        if random.coin() {
            (start.at, start.tried, start.listening, start.passed) = (0, 0, 0, 0);
        }
        start.round.count %= 12;
        let comes = coming(
            &mut random,
            &pace,
            start.round.count,
            |random, pace| match random.coin() {
                true => generate::noise(random, pace),
                false => generate::sensed(random, pace),
            },
        );
        let mut calls = 0;
        let mut outcome = |random: &mut Random| {
            run(
                random,
                &pace,
                &start,
                false,
                &comes,
                |now, out| draw(left, right, now, &pace, out),
                |now, minute, samples| {
                    calls += 1;
                    hear(left, right, now, &pace, minute, samples)
                },
            )
        };
        let one = outcome(&mut random)?;
        for _ in 0..2 {
            let other = outcome(&mut random)?;
            same(&one, &other, || {
                format!("in two batchings, {}", words(&start, &pace))
            })?;
        }
        Ok(calls)
    })
}

/// Delay and poll of an address, sample by sample.
fn poll_drawn(address: u16, pace: &Pace) -> Vec<u8> {
    let mut samples = vec![0; pace.delay as usize];
    let mut bytes = [0; 2];
    let poll = Poll {
        address,
        raise: false,
        reset: false,
    };
    if write_poll(&poll, &mut bytes).is_ok() {
        for bit in 0..16 {
            let line = match bytes[bit / 8] >> (7 - bit % 8) & 1 {
                1 => 1,
                _ => 2,
            };
            samples.extend(vec![line; pace.low as usize]);
            samples.extend(vec![0; pace.still as usize]);
        }
    }
    samples
}

/// What a round of these rows is to come to: each transmitter polled until it gives a message or has
/// been tried often enough.
fn expected_tries(
    rows: &[&Row],
    pace: &Pace,
    comes: impl Fn(u16, usize) -> Sensed,
) -> (Vec<Try>, Vec<(u32, Vec<u8>)>) {
    let (mut tries, mut replies) = (Vec::new(), Vec::new());
    for (place, row) in rows.iter().enumerate() {
        for tried in 0..pace.tries as usize {
            let sensed = comes(place as u16, tried);
            let last = tried + 1 == pace.tries as usize;
            let answered = last || !sensed.bits.is_empty();
            tries.push(Try {
                drawn: poll_drawn(row.address, pace),
                taken: sensed.taken,
                reply: place as u16,
                answered: answered.into(),
                over: (answered && place + 1 == rows.len()).into(),
                number: sensed.number,
                minute: 0,
            });
            if answered {
                let mut bytes = vec![0; sensed.bits.len().div_ceil(8)];
                for (n, &mark) in sensed.bits.iter().enumerate() {
                    bytes[n / 8] |= u8::from(mark) << (7 - n % 8);
                }
                replies.push((sensed.bits.len() as u32, bytes));
                break;
            }
        }
    }
    (tries, replies)
}

/// Whole rounds from a board that enrolments made: each transmitter answers, or does not, and a core is
/// held to what each of them did. The round is then saved, and each reply heard on the board.
fn transmitters<C: Pollings>(core: &C, seed: u64, count: usize) -> Verdict {
    in_parts(count, |part| {
        let mut random = Random::new(seed, part as u64);
        let pace = generate::quick_pace(&mut random);
        let rows = generate::enrolled(&mut random);
        let used: Vec<&Row> = rows.iter().filter(|row| row.in_use).collect();
        let comes = coming(&mut random, &pace, used.len(), generate::sensed);
        let begun = core.polling_begin(&rows, 999);
        let asked = || format!("{pace:?}, {used:?}");
        same(
            (begun.number, begun.polling.round.count),
            (0, used.len()),
            asked,
        )?;
        let (tries, end) = run(
            &mut random,
            &pace,
            &begun.polling,
            true,
            &comes,
            |now, out| {
                let drew = core.drawn_of(now, &pace, out);
                let behind = out.iter().skip(drew.count);
                same(behind.clone().all(|&byte| byte == BEFORE), true, || {
                    format!("what is not drawn, {}", words(now, &pace))
                })?;
                Ok(drew)
            },
            |now, minute, samples| Ok(core.heard_of(now, &pace, minute, samples)),
        )?;
        let (mut expected, replies) = expected_tries(&used, &pace, &comes);
        for (expected, told) in expected.iter_mut().zip(&tries) {
            expected.minute = told.minute;
        }
        same(&tries, &expected, asked)?;
        let minutes = tries.iter().filter(|told| told.answered != 0);
        let mut round = begun.polling.round;
        for (place, told) in minutes.enumerate().take(used.len()) {
            let (count, bytes) = &replies[place];
            let mut reply = [0; 8];
            reply[..bytes.len()].copy_from_slice(bytes);
            round.replies[place] = Polled {
                minute: told.minute,
                count: *count,
                bytes: bytes.len() as u32,
                address: used[place].address,
                settings: used[place].settings,
                unused: 0,
                reply,
            };
        }
        let at = used.len() as u16;
        let over = Polling {
            round,
            at,
            ..Polling::default()
        };
        same(end, over, asked)?;
        saved_and_heard(&end, rows.clone())?;
        let all = tries.iter().map(|told| told.drawn.len() + told.taken);
        Ok(all.sum::<usize>() as u64)
    })
}

/// A round that began from a board that enrolments made is saved whole, and the board hears each reply.
fn saved_and_heard(end: &Polling, mut rows: Vec<Row>) -> Result<(), Difference> {
    let count = end.round.count;
    let mut sheet = vec![BLANK; count * SLOT];
    let rounded = rounds::save(&mut sheet, None, &end.round, usize::MAX);
    let asked = || format!("saving {:?}", end.round);
    let expected = Rounded {
        closed: count,
        stores: rounded.stores,
        number: 0,
    };
    same(rounded, expected, asked)?;
    for polled in end.round.replies() {
        let entry = polled.entry();
        let heard = board::hear(
            &mut rows,
            entry.minute,
            entry.address,
            entry.count,
            entry.reply,
        );
        let number = heard.err().map_or(0, |fault| fault.number());
        same(
            number <= 9 && entry.address <= LARGEST_ADDRESS,
            true,
            || format!("hearing {polled:?}"),
        )?;
    }
    Ok(())
}
