//! Rounds of replies, honest and hostile.

use super::{pair_save, SaveCase};
use crate::random::Random;
use crate::types::rounds::{Polled, Round, MOST_REPLIES};

/// A save as a reply of a round. What is not read is anything.
pub fn polled(random: &mut Random, case: &SaveCase) -> Polled {
    let entry = case.entry();
    let mut reply = [0; 8];
    random.fill(&mut reply);
    let lent = entry.reply.len().min(8);
    reply[..lent].copy_from_slice(&entry.reply[..lent]);
    Polled {
        minute: entry.minute,
        count: u32::try_from(entry.count).unwrap_or(u32::MAX),
        bytes: entry.reply.len() as u32,
        address: entry.address,
        settings: entry.settings,
        unused: random.byte(),
        reply,
    }
}

/// A round of these saves, thirty at most.
pub fn round_of(random: &mut Random, cases: &[SaveCase]) -> Round {
    let mut round = Round {
        count: cases.len().min(MOST_REPLIES),
        ..Round::default()
    };
    for (place, case) in round.replies.iter_mut().zip(cases) {
        *place = polled(random, case);
    }
    round
}

/// A round of up to so many replies of these pairs; some replies are refused, and now and then the
/// round is.
pub fn round(random: &mut Random, pairs: &[(u16, u8)], most: usize) -> Round {
    let cases: Vec<SaveCase> = (0..MOST_REPLIES)
        .map(|_| pair_save(random, pairs))
        .collect();
    let mut round = round_of(random, &cases);
    round.count = match random.below(24) {
        0 => [31, 32, 255, 256, 286, 1 << 32, usize::MAX][random.below(7)],
        1 => most,
        _ => random.below(most + 1),
    };
    if random.one_in(3) {
        let place = random.below(round.replies().len().max(1));
        let polled = &mut round.replies[place];
        match random.below(8) {
            0 => polled.settings = 16,
            1 => polled.address = 1_000,
            2 => polled.count = [65, 64 + 256, 1 << 16, u32::MAX][random.below(4)],
            3 => polled.bytes = polled.bytes.wrapping_add(1),
            4 => polled.bytes = polled.bytes.wrapping_sub(1),
            5 => polled.bytes = [9, 16, 255, 256 + polled.bytes, 1 << 31][random.below(5)],
            6 => polled.bytes += [1 << 8, 1 << 16, 1 << 24][random.below(3)],
            _ => polled.reply[7] |= 1,
        }
    }
    round
}

#[cfg(test)]
mod tests {
    use super::*;
    use crate::generate::pairs;
    use crate::random::SEED;
    use crate::reading::rounds::save;
    use crate::types::{BLANK, SLOT};

    #[test]
    fn rounds_have_every_outcome() {
        let mut random = Random::new(SEED, 0);
        let mut seen = [0u32; 38];
        for _ in 0..5_000 {
            let pairs = pairs(&mut random);
            let round = round(&mut random, &pairs, MOST_REPLIES);
            let odd = usize::from(random.one_in(16));
            let mut sheet = vec![BLANK; random.below(32) * SLOT + odd];
            let rounded = save(&mut sheet, None, &round, usize::MAX);
            seen[usize::from(rounded.number)] += 1;
        }
        for number in [0, 10, 11, 12, 13, 14, 23] {
            assert!(seen[number] > 50, "{number}: {seen:?}");
        }
    }
}
