//! The lines heard, request 01.

use crate::calls::Lines;
use crate::types::lines::{LinesTold, PulseTimes, SoFar};

/// Runs of samples, put end to end.
fn runs(runs: &[(u8, usize)]) -> Vec<u8> {
    let run = |&(sample, length): &(u8, usize)| vec![sample; length];
    runs.iter().flat_map(run).collect()
}

fn state(bits: u64, run: u32, count: u16, line: u8, fault: u8) -> SoFar {
    SoFar {
        bits,
        run,
        count,
        line,
        fault,
    }
}

/// Hears samples and holds what is told, and the state after it, to the table.
fn hears(
    core: &impl Lines,
    so_far: SoFar,
    [least, most, gap]: [usize; 3],
    samples: &[u8],
    told: (&[u8], u8, u8, usize),
    after: SoFar,
) {
    let (bytes, count, number, taken) = told;
    let mut message = [0; 8];
    message[..bytes.len()].copy_from_slice(bytes);
    let expected = LinesTold {
        so_far: after,
        taken,
        message,
        count,
        number,
    };
    let times = PulseTimes { least, most, gap };
    assert_eq!(
        core.hear_lines(so_far, times, samples),
        expected,
        "{times:?}"
    );
}

const BEGINNING: SoFar = SoFar {
    bits: 0,
    run: 0,
    count: 0,
    line: 0,
    fault: 0,
};

/// Messages, and the states that calls leave between them.
pub fn messages(core: &impl Lines) {
    let two = [(1, 2), (0, 3), (2, 3), (0, 4), (0, 9)];
    let times = [2, 3, 4];
    hears(
        core,
        BEGINNING,
        times,
        &runs(&two),
        (&[0x80], 2, 0, 12),
        BEGINNING,
    );
    hears(core, BEGINNING, times, &[0; 50], (&[], 0, 0, 50), BEGINNING);
    let first = state(1 << 63, 1, 1, 2, 0);
    let second = state(1 << 63, 3, 2, 0, 0);
    let part = runs(&[(1, 2), (0, 3), (2, 1)]);
    hears(core, BEGINNING, times, &part, (&[], 0, 0, 6), first);
    hears(core, first, times, &[2, 2, 0, 0, 0], (&[], 0, 0, 5), second);
    hears(core, second, times, &[0], (&[0x80], 2, 0, 1), BEGINNING);
    hears(
        core,
        BEGINNING,
        [1, 3, 1],
        &[2, 0, 1, 0],
        (&[0], 1, 0, 2),
        BEGINNING,
    );
}

/// Messages that are spoiled, and a line that is stuck.
pub fn spoiled(core: &impl Lines) {
    let refused = |times, these: &[(u8, usize)], number, taken| {
        hears(
            core,
            BEGINNING,
            times,
            &runs(these),
            (&[], 0, number, taken),
            BEGINNING,
        );
    };
    refused([2, 3, 4], &[(1, 1), (0, 4)], 21, 5);
    refused([2, 3, 4], &[(1, 4), (0, 4)], 21, 8);
    refused([1, 3, 4], &[(1, 1), (2, 1), (0, 4)], 21, 6);
    refused([1, 3, 4], &[(3, 1), (0, 4)], 21, 5);
    refused([1, 3, 4], &[(1, 9), (0, 1), (200, 1), (0, 4)], 22, 15);
    let twice = [(1, 1), (0, 3), (3, 1), (0, 3), (1, 1), (0, 4)];
    refused([1, 3, 4], &twice, 21, 13);
    let stuck = state(0, 1_001, 0, 2, 0);
    hears(
        core,
        BEGINNING,
        [2, 3, 4],
        &[2; 70_000],
        (&[], 0, 0, 70_000),
        stuck,
    );
}

/// 64 bits are a message, 65 are none.
pub fn sixty_fifth_bit(core: &impl Lines) {
    let mut samples = [1, 0].repeat(64);
    samples.push(0);
    let told: (&[u8], u8, u8, usize) = (&[0xFF; 8], 64, 0, 129);
    hears(core, BEGINNING, [1, 1, 2], &samples, told, BEGINNING);
    let mut samples = [1, 0].repeat(65);
    samples.push(0);
    hears(
        core,
        BEGINNING,
        [1, 1, 2],
        &samples,
        (&[], 0, 21, 131),
        BEGINNING,
    );
}

/// The timing is asked first, and a state that no call leaves is heard as spoiled.
pub fn strange_state(core: &impl Lines) {
    let strange = state(5, 6, 7, 8, 9);
    let samples = runs(&[(1, 2), (0, 9)]);
    hears(core, strange, [3, 2, 4], &samples, (&[], 0, 20, 0), strange);
    hears(
        core,
        strange,
        [1, 3, 4],
        &[0; 4],
        (&[], 0, 21, 4),
        BEGINNING,
    );
    hears(
        core,
        strange,
        [1, 3, 4],
        &[],
        (&[], 0, 0, 0),
        state(0, 0, 0, 0, 21),
    );
}

/// The bench reply, drawn with pulses of 4 samples and idle of 4 between them.
pub fn bench_reply(core: &impl Lines) {
    let reply = [0x80u8, 0x0E, 0x50, 0x00, 0x00];
    let mut samples = Vec::new();
    for bit in 0..40 {
        let mark = reply[bit / 8] >> (7 - bit % 8) & 1 == 1;
        samples.extend(runs(&[(if mark { 1 } else { 2 }, 4), (0, 4)]));
    }
    samples.extend([0; 36]);
    assert_eq!(samples.len(), 356);
    hears(
        core,
        BEGINNING,
        [3, 5, 40],
        &samples,
        (&reply, 40, 0, 356),
        BEGINNING,
    );
}
