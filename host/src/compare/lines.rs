//! The lines compared, in batches and sample by sample; and drawn messages, which a core is held
//! to without another.

use super::{check, in_parts, same, Check, Difference, Verdict};
use crate::calls::Lines;
use crate::generate;
use crate::random::Random;
use crate::types::lines::{LinesTold, PulseTimes, SoFar};

/// The comparisons of cores that hear the lines.
pub fn checks<L: Lines, R: Lines>() -> Vec<Check<L, R>> {
    vec![
        check("lines, all short streams", |l, r, _| short_streams(l, r)),
        check("lines, timing numbers", |l, r, _| timing_numbers(l, r)),
        check("lines, states of every kind", |l, r, plan| {
            states(l, r, plan.seed, plan.line_states)
        }),
        check("lines, streams in batches", |l, r, plan| {
            streams(l, r, plan.seed, plan.streams)
        }),
        check("lines, drawn then heard, left", |l, _, plan| {
            drawn(l, plan.seed, plan.streams)
        }),
        check("lines, drawn then heard, right", |_, r, plan| {
            drawn(r, plan.seed, plan.streams)
        }),
    ]
}

/// Hears samples with both.
fn hear<L: Lines, R: Lines>(
    left: &L,
    right: &R,
    so_far: SoFar,
    times: PulseTimes,
    samples: &[u8],
) -> Result<LinesTold, Difference> {
    let told = left.hear_lines(so_far, times, samples);
    same(told, right.hear_lines(so_far, times, samples), || {
        format!("hearing {} from {so_far:?}, {times:?}", in_runs(samples))
    })?;
    Ok(told)
}

/// Samples as runs, for a difference to be read.
pub(super) fn in_runs(samples: &[u8]) -> String {
    let runs = samples.chunk_by(|one, next| one == next);
    let words: Vec<String> = runs
        .map(|run| format!("{}x{}", run[0], run.len()))
        .collect();
    format!("{} samples {}", samples.len(), words.join(" "))
}

/// What a stream came to: each thing told with the samples taken of the whole stream until then,
/// and the state at the end.
pub(super) type Outcome = (Vec<(usize, LinesTold)>, SoFar);

/// Hears a whole stream, handed over in batches that end where `ends` says; what a call does not
/// take is handed over again.
pub(super) fn in_batches(
    start: SoFar,
    ends: &[usize],
    mut hear: impl FnMut(SoFar, usize, usize) -> Result<LinesTold, Difference>,
) -> Result<Outcome, Difference> {
    let (mut so_far, mut at, mut all) = (start, 0, Vec::new());
    for &end in ends {
        // A call that tells has taken a sample; one that tells nothing has taken all.
        let most = end - at;
        for _ in 0..=most {
            let told = hear(so_far, at, end)?;
            so_far = told.so_far;
            at = (at + told.taken).min(end);
            if told.count == 0 && told.number == 0 {
                break;
            }
            all.push((at, told));
        }
        same(at, end, || "the samples taken of a batch".to_string())?;
    }
    Ok((all, so_far))
}

/// Every stream of six samples of five kinds, by short timing numbers, from the beginning
/// and from within a message: in one call, and sample by sample.
fn short_streams<L: Lines, R: Lines>(left: &L, right: &R) -> Verdict {
    const KINDS: [u8; 5] = [0, 1, 2, 3, 200];
    const LONGEST: u32 = 6;
    const TIMES: [[usize; 3]; 5] = [[1, 1, 1], [1, 1, 2], [1, 2, 2], [2, 2, 3], [2, 3, 1]];
    let starts = [
        SoFar::default(),
        SoFar {
            bits: u64::MAX << 1,
            run: 1,
            count: 63,
            ..SoFar::default()
        },
    ];
    in_parts(TIMES.len() * starts.len() * KINDS.len(), |part| {
        let [least, most, gap] = TIMES[part % TIMES.len()];
        let times = PulseTimes { least, most, gap };
        let start = starts[part / TIMES.len() % starts.len()];
        let first = KINDS[part / TIMES.len() / starts.len()];
        let streams = KINDS.len().pow(LONGEST - 1);
        let mut samples = [first; LONGEST as usize];
        for stream in 0..streams {
            let mut rest = stream;
            for sample in &mut samples[1..] {
                *sample = KINDS[rest % KINDS.len()];
                rest /= KINDS.len();
            }
            let call = |so_far, from, to| hear(left, right, so_far, times, &samples[from..to]);
            let whole = in_batches(start, &[samples.len()], call)?;
            let mut so_far = start;
            for (n, sample) in samples.iter().enumerate() {
                let told = hear(left, right, so_far, times, &[*sample])?;
                let is_told = told.count != 0 || told.number != 0;
                let expected = whole.0.iter().any(|(at, _)| *at == n + 1);
                same(is_told, expected, || {
                    format!("sample {n} of {} by itself, {times:?}", in_runs(&samples))
                })?;
                so_far = told.so_far;
            }
            same(so_far, whole.1, || {
                format!("{} one by one, {times:?}", in_runs(&samples))
            })?;
        }
        Ok(streams as u64 * u64::from(LONGEST + 1))
    })
}

/// Timing numbers about every end of their ranges, and those that a narrower number would take for
/// good ones.
fn timing_numbers<L: Lines, R: Lines>(left: &L, right: &R) -> Verdict {
    const NUMBERS: [usize; 20] = [
        0,
        1,
        2,
        3,
        255,
        256,
        257,
        999,
        1_000,
        1_001,
        9_999,
        10_000,
        10_001,
        65_535,
        65_536,
        65_538,
        1 << 32,
        (1 << 32) + 2,
        usize::MAX - 1,
        usize::MAX,
    ];
    let open = SoFar {
        bits: 1 << 63,
        run: 2,
        count: 1,
        ..SoFar::default()
    };
    let strange = SoFar { line: 7, ..open };
    in_parts(NUMBERS.len(), |part| {
        let mut asked = 0;
        for most in NUMBERS {
            for gap in NUMBERS {
                let least = NUMBERS[part];
                let times = PulseTimes { least, most, gap };
                for so_far in [SoFar::default(), open, strange] {
                    for samples in [&[][..], &[1, 1, 0, 0, 0], &[0, 2, 2, 0, 3]] {
                        hear(left, right, so_far, times, samples)?;
                        asked += 1;
                    }
                }
            }
        }
        Ok(asked)
    })
}

/// States of every kind, handed in with any timing numbers and a few samples.
fn states<L: Lines, R: Lines>(left: &L, right: &R, seed: u64, count: usize) -> Verdict {
    const PART: usize = 1_000;
    in_parts(count.div_ceil(PART), |part| {
        let mut random = Random::new(seed, part as u64);
        for _ in 0..PART {
            let so_far = generate::so_far(&mut random);
            let times = match random.one_in(8) {
                true => generate::bad_times(&mut random),
                false => generate::pulse_times(&mut random),
            };
            let mut samples = [0; 40];
            for sample in &mut samples {
                *sample = match random.below(16) {
                    0 => random.byte(),
                    1 => random.below(4) as u8,
                    _ => samples_kind(so_far.line, random.below(3)),
                };
            }
            let samples = &samples[..random.below(41)];
            hear(left, right, so_far, times, samples)?;
        }
        Ok(PART as u64)
    })
}

/// A sample that goes on with a state's line more often than not.
fn samples_kind(line: u8, choice: usize) -> u8 {
    match choice {
        0 => line,
        _ => 0,
    }
}

/// Streams, whole, in batches and in other batches, from the beginning or from any state.
fn streams<L: Lines, R: Lines>(left: &L, right: &R, seed: u64, count: usize) -> Verdict {
    in_parts(count, |part| {
        let mut random = Random::new(seed, part as u64);
        let times = generate::pulse_times(&mut random);
        let samples = generate::samples(&mut random, times);
        let start = match random.one_in(4) {
            true => generate::so_far(&mut random),
            false => SoFar::default(),
        };
        let mut calls = 0;
        let mut outcome = |ends: &[usize]| {
            in_batches(start, ends, |so_far, from, to| {
                calls += 1;
                hear(left, right, so_far, times, &samples[from..to])
            })
        };
        let whole = outcome(&[samples.len()])?;
        for _ in 0..2 {
            let ends = generate::batches(&mut random, samples.len());
            let other = outcome(&ends)?;
            let told = |outcome: &Outcome| -> Vec<_> {
                let event = |(at, told): &(usize, LinesTold)| {
                    (*at, told.message, told.count, told.number, told.so_far)
                };
                outcome.0.iter().map(event).collect()
            };
            same((told(&whole), whole.1), (told(&other), other.1), || {
                let runs = in_runs(&samples);
                format!("{runs} from {start:?}, {times:?}, whole and in batches {ends:?}")
            })?;
        }
        Ok(calls)
    })
}

/// Drawn messages, handed over in batches: one core is held to what was drawn.
fn drawn<C: Lines>(core: &C, seed: u64, count: usize) -> Verdict {
    in_parts(count, |part| {
        let mut random = Random::new(seed, part as u64);
        let times = generate::pulse_times(&mut random);
        let drawn = generate::drawn(&mut random, times);
        let samples = &drawn.samples;
        let ends = generate::batches(&mut random, samples.len());
        let mut calls = 0;
        let (told, after) = in_batches(SoFar::default(), &ends, |so_far, from, to| {
            calls += 1;
            Ok(core.hear_lines(so_far, times, &samples[from..to]))
        })?;
        let asked = || format!("hearing {}, {times:?}", in_runs(samples));
        let sayings = told.iter().map(|(taken, told)| generate::Saying {
            bits: (0..usize::from(told.count))
                .map(|n| told.message[n / 8 % 8] >> (7 - n % 8) & 1 == 1)
                .collect(),
            number: told.number,
            taken: *taken,
        });
        same(sayings.collect(), drawn.sayings, asked)?;
        same(after, SoFar::default(), asked)?;
        Ok(calls)
    })
}
