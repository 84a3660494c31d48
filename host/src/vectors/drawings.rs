//! Messages drawn, our request 15.

use crate::calls::Drawings;
use crate::types::drawings::Drawing;
use crate::types::{Answer, Fault};

/// Runs of samples, put end to end.
fn runs(runs: &[(u8, usize)]) -> Vec<u8> {
    let run = |&(sample, length): &(u8, usize)| vec![sample; length];
    runs.iter().flat_map(run).collect()
}

/// Draws, and holds the count and the whole output to the table.
fn draws(
    core: &impl Drawings,
    [low, still, count]: [usize; 3],
    message: &[u8],
    (from, room): (usize, usize),
    expected: Answer<Vec<u8>>,
) {
    let drawing = Drawing {
        low,
        still,
        count,
        message,
    };
    let mut out = vec![0xA5; room];
    let drew = core.draw(&drawing, from, &mut out);
    let samples = expected.clone().unwrap_or_default();
    let mut after = samples.clone();
    after.resize(room, 0xA5);
    assert_eq!(
        (drew, out),
        (expected.map(|samples| samples.len()), after),
        "{drawing:?} from {from}"
    );
}

/// The request's table.
pub fn drawn(core: &impl Drawings) {
    let two = [2, 3, 2];
    let none = || Ok(Vec::new());
    let whole = [(1, 2), (0, 3), (2, 2), (0, 3)];
    draws(core, two, &[0x80], (0, 20), Ok(runs(&whole)));
    draws(core, two, &[0x80], (4, 3), Ok(runs(&[(0, 1), (2, 2)])));
    draws(core, two, &[0x80], (9, 5), Ok(vec![0]));
    draws(core, two, &[0x80], (10, 5), none());
    draws(core, two, &[0x80], (usize::MAX, 5), none());
    draws(core, two, &[0x80], (3, 0), none());
    draws(core, [1, 1, 0], &[], (0, 5), none());
    let mut poll = runs(&[(1, 2), (0, 3)]);
    poll.extend(runs(&[(2, 2), (0, 3)]).repeat(12));
    poll.extend(runs(&[(1, 2), (0, 3)]).repeat(3));
    assert_eq!(poll.len(), 80);
    draws(core, [2, 3, 16], &[0x80, 0x07], (0, 99), Ok(poll));
    let long = [1_000, 10_000, 64];
    draws(core, long, &[0; 8], (703_999, 5), Ok(vec![0]));
    draws(core, long, &[0; 8], (693_000, 3), Ok(vec![2; 3]));
}

/// Its refusals, which change nothing.
pub fn refused(core: &impl Drawings) {
    let (timing, form) = (Err(Fault::Timing), Err(Fault::Form));
    draws(core, [0, 3, 2], &[0x80], (0, 5), timing.clone());
    draws(core, [1, 10_001, 2], &[0x80], (0, 5), timing.clone());
    draws(core, [1_001, 3, 65], &[0x80], (0, 5), timing);
    draws(core, [1, 1, 0], &[0], (0, 5), form.clone());
    draws(core, [1, 10_000, 65], &[0; 9], (0, 5), form.clone());
    draws(core, [1, 1, 2], &[0x81], (0, 5), form.clone());
    draws(core, [1, 1, usize::MAX], &[], (0, 5), form);
}
