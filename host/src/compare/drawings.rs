//! Drawings compared; and drawings in batches, each sample of which a core is held to without
//! another, drawn and heard again.

use super::lines::{in_batches, in_runs};
use super::{check, in_parts, same, Check, Difference, Hex, Verdict};
use crate::calls::{Drawings, Lines};
use crate::generate::{self, DrawingCase};
use crate::random::Random;
use crate::types::drawings::Drawing;
use crate::types::lines::{PulseTimes, SoFar};

/// What out-buffers hold before a call, so that a byte changed too many shows.
const BEFORE: u8 = 0xA5;
/// Most samples of a drawing that is followed to its end.
const ENOUGH: usize = 30_000;

/// The comparisons of cores that draw, and hear what they drew.
pub fn checks<L: Drawings + Lines, R: Drawings + Lines>() -> Vec<Check<L, R>> {
    vec![
        check("drawings, all short messages", |l, r, _| {
            short_messages(l, r)
        }),
        check("drawings, lengths and forms", |l, r, _| forms(l, r)),
        check("drawings, from anywhere", |l, r, plan| {
            anywhere(l, r, plan.seed, plan.drawings)
        }),
        check("drawings, each sample, left", |l, _, plan| {
            samples(l, plan.seed, plan.drawings / 10)
        }),
        check("drawings, each sample, right", |_, r, plan| {
            samples(r, plan.seed, plan.drawings / 10)
        }),
        check("drawings, drawn then heard, left", |l, _, plan| {
            heard(l, plan.seed, plan.drawings / 10)
        }),
        check("drawings, drawn then heard, right", |_, r, plan| {
            heard(r, plan.seed, plan.drawings / 10)
        }),
    ]
}

/// Draws with both, into as many bytes as there is room for in a larger buffer.
fn draw<L: Drawings, R: Drawings>(
    left: &L,
    right: &R,
    drawing: &Drawing,
    from: usize,
    room: usize,
) -> Result<(), Difference> {
    let mut out = vec![BEFORE; room + 4];
    let mut other = out.clone();
    let drew = left.draw(drawing, from, &mut out[..room]);
    let drew_other = right.draw(drawing, from, &mut other[..room]);
    same((drew, Hex(&out)), (drew_other, Hex(&other)), || {
        format!("{drawing:?} from {from} into {room} bytes")
    })
}

/// Every message of up to four bits, with every short pulse and idle, from every sample on into
/// every room.
fn short_messages<L: Drawings, R: Drawings>(left: &L, right: &R) -> Verdict {
    in_parts(5 * 9, |part| {
        let (count, low, still) = (part % 5, 1 + part / 5 % 3, 1 + part / 15);
        let all = count * (low + still);
        let mut asked = 0;
        for bits in 0..1u8 << count {
            let byte = [if count == 0 { 0 } else { bits << (8 - count) }];
            let drawing = Drawing {
                low,
                still,
                count,
                message: &byte[..count.div_ceil(8)],
            };
            for from in 0..all + 3 {
                for room in 0..all + 3 {
                    draw(left, right, &drawing, from, room)?;
                    asked += 1;
                }
            }
        }
        Ok(asked)
    })
}

/// The ends of every range, wide numbers that a narrow one would take for others, every count of
/// bits with too few, enough and too many bytes, and every pad bit.
fn forms<L: Drawings, R: Drawings>(left: &L, right: &R) -> Verdict {
    let lengths = [
        0,
        1,
        2,
        999,
        1_000,
        1_001,
        9_999,
        10_000,
        10_001,
        65_537,
        (1 << 32) + 1,
        usize::MAX,
    ];
    in_parts(lengths.len(), |part| {
        let low = lengths[part];
        let mut asked = 0;
        for still in lengths {
            for count in (0..=66).chain([256, 320, usize::MAX - 7, usize::MAX]) {
                for bytes in 0..10 {
                    for pad in 0..9 {
                        let mut message = [0xC3u8; 10];
                        let full = count.min(79) / 8;
                        message[full] &= !(0xFFu8 >> (count % 8));
                        if pad < 8 {
                            message[full] |= 1 << pad;
                        }
                        let message = &message[..bytes];
                        let drawing = Drawing {
                            low,
                            still,
                            count,
                            message,
                        };
                        draw(left, right, &drawing, 0, 24)?;
                        asked += 1;
                    }
                }
            }
        }
        Ok(asked)
    })
}

/// Messages of any kind, from any sample on.
fn anywhere<L: Drawings, R: Drawings>(left: &L, right: &R, seed: u64, count: usize) -> Verdict {
    in_parts(count.div_ceil(1_000), |part| {
        let mut random = Random::new(seed, part as u64);
        for _ in 0..1_000 {
            let case = generate::drawing(&mut random);
            let from = generate::from_sample(&mut random, &case);
            let room = [0, 1, random.below(40), random.below(2_000)][random.below(4)];
            draw(left, right, &case.drawing(), from, room)?;
        }
        Ok(1_000)
    })
}

/// The samples of a drawing, as a core puts them down in batches of any room, each from where the
/// last one ended, until it draws no more.
fn in_rooms<C: Drawings>(
    core: &C,
    random: &mut Random,
    case: &DrawingCase,
) -> Result<Vec<u8>, Difference> {
    let all = case.count * (case.low + case.still);
    let longest = [2, 9, 400, all + 1][random.below(4)].max(all / 400);
    let mut samples = Vec::new();
    let asked = |from: usize, room: usize| format!("{case:?} from {from} into {room} bytes");
    for _ in 0..10_000 {
        let (from, room) = (samples.len(), random.below(longest + 1));
        let mut out = vec![BEFORE; room];
        let drew = core.draw(&case.drawing(), from, &mut out);
        let expected = (all - from.min(all)).min(room);
        same(drew, Ok(expected), || asked(from, room))?;
        let rest = out.split_off(expected);
        same(rest.iter().all(|&byte| byte == BEFORE), true, || {
            asked(from, room)
        })?;
        samples.append(&mut out);
        if expected == 0 && room > 0 {
            return Ok(samples);
        }
    }
    Ok(samples)
}

/// A message to be followed to its end.
fn followed(random: &mut Random) -> DrawingCase {
    let mut case = generate::good_drawing(random);
    if case.count * (case.low + case.still) > ENOUGH {
        case.low = 1 + case.low % 40;
        case.still = 1 + case.still % 40;
    }
    case
}

/// Sample by sample, in the request's words: its number divided by the samples of a bit is the
/// bit, the remainder its place in it.
fn samples<C: Drawings>(core: &C, seed: u64, count: usize) -> Verdict {
    in_parts(count.div_ceil(20), |part| {
        let mut random = Random::new(seed, part as u64);
        let mut asked = 0;
        for _ in 0..20 {
            let case = followed(&mut random);
            let size = case.low + case.still;
            let samples = in_rooms(core, &mut random, &case)?;
            for (k, &sample) in samples.iter().enumerate() {
                let bit = k / size;
                let mark = case.message[bit / 8] >> (7 - bit % 8) & 1 == 1;
                let expected = match k % size < case.low {
                    false => 0,
                    true => [2, 1][usize::from(mark)],
                };
                same(sample, expected, || format!("sample {k} of {case:?}"))?;
            }
            same(samples.len(), case.count * size, || format!("{case:?}"))?;
            asked += samples.len() as u64;
        }
        Ok(asked)
    })
}

/// Drawn in batches, with a gap after it, and heard in others: the message comes back, at the
/// sample that the gap closes on.
fn heard<C: Drawings + Lines>(core: &C, seed: u64, count: usize) -> Verdict {
    in_parts(count.div_ceil(20), |part| {
        let mut random = Random::new(seed, part as u64);
        let mut asked = 0;
        for _ in 0..20 {
            let mut case = followed(&mut random);
            case.still = case.still.min(9_999);
            let times = PulseTimes {
                least: 1 + random.below(case.low),
                most: case.low + random.below(1_001 - case.low),
                gap: case.still + 1 + random.below((10_000 - case.still).min(50)),
            };
            let drawn = in_rooms(core, &mut random, &case)?;
            let mut samples = drawn.clone();
            samples.resize(drawn.len() + times.gap, 0);
            let ends = generate::batches(&mut random, samples.len());
            let words = || format!("{case:?}, {times:?}, as {}", in_runs(&samples));
            let (told, end) = in_batches(SoFar::default(), &ends, |so_far, from, to| {
                Ok(core.hear_lines(so_far, times, &samples[from..to]))
            })?;
            let told: Vec<_> = told
                .into_iter()
                .map(|(at, told)| (at, told.number, told.count, told.message))
                .collect();
            let mut message = [0; 8];
            message[..case.message.len()].copy_from_slice(&case.message);
            let close = samples.len() - case.still;
            let expected = match case.count {
                0 => Vec::new(),
                count => vec![(close, 0, count as u8, message)],
            };
            same((told, end), (expected, SoFar::default()), words)?;
            asked += samples.len() as u64;
        }
        Ok(asked)
    })
}
