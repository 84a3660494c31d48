//! Sheets of few or many pairs, and summaries handed in, good and hostile.

use super::{address, hostile_slot, minute, save_case, SaveCase};
use crate::random::Random;
use crate::reading::sheet::save;
use crate::types::summaries::{Line, Summary, LARGEST_COUNT, MOST_LINES, NO_LEVEL};
use crate::types::{BLANK, SLOT};

/// Address and settings pairs, few or about thirty; some share their address.
pub fn pairs(random: &mut Random) -> Vec<(u16, u8)> {
    let count = [1, 3, 8, 29, 30, 31, 32, 40][random.below(8)];
    let addresses: Vec<u16> = (0..count).map(|_| address(random)).collect();
    let pair = |_| (addresses[random.below(count)], random.below(16) as u8);
    (0..count).map(pair).collect()
}

/// A save of one of these pairs, or now and then of any pair or of none.
pub fn pair_save(random: &mut Random, pairs: &[(u16, u8)]) -> SaveCase {
    let mut case = save_case(random);
    if random.one_in(24) {
        return case;
    }
    if let Some(&(address, settings)) = random.choose(pairs) {
        case.reply = match random.one_in(4) {
            true => super::damaged_reply(random),
            false => super::good_reply(random, settings, address),
        };
        (case.reply.address, case.reply.settings) = (address, settings);
    }
    case.minute = minute(random);
    case
}

/// A sheet of records of these pairs, with hostile slots among them and blank ones behind.
pub fn summarised_sheet(random: &mut Random, pairs: &[(u16, u8)]) -> Vec<u8> {
    let used = random.below(80);
    let mut sheet = vec![BLANK; (used + random.below(8)) * SLOT];
    for slot in sheet.chunks_exact_mut(SLOT).take(used) {
        if random.one_in(8) {
            slot.copy_from_slice(&hostile_slot(random));
        } else {
            // A refused save leaves a hole.
            let _ = save(slot, &pair_save(random, pairs).entry(), usize::MAX);
        }
    }
    sheet
}

/// A line of these, with or without levels, its counts small, at the largest or just above it.
fn line(random: &mut Random, address: u16, settings: u16) -> Line {
    let count = |random: &mut Random| match random.below(16) {
        0 => LARGEST_COUNT,
        1 => LARGEST_COUNT - 1,
        2..=6 => 0,
        _ => random.below(2_000) as u32,
    };
    let good = count(random);
    let level = |random: &mut Random| match good {
        0 => NO_LEVEL,
        _ => random.below(33_000) as u16,
    };
    Line {
        address,
        settings,
        lowest: level(random),
        highest: level(random),
        good,
        faulty: count(random),
    }
}

/// A summary that is not refused: any number of lines, of these pairs mostly.
pub fn summary(random: &mut Random, pairs: &[(u16, u8)]) -> Summary {
    let mut keys: Vec<(u16, u16)> = pairs
        .iter()
        .map(|&(address, settings)| (address, u16::from(settings)))
        .collect();
    if random.one_in(8) {
        keys.push((random.next() as u16, random.next() as u16));
    }
    while random.one_in(3) && !keys.is_empty() {
        keys.swap_remove(random.below(keys.len()));
    }
    keys.sort_unstable();
    keys.dedup();
    keys.truncate(MOST_LINES);
    let mut summary = Summary {
        count: keys.len() as u32,
        others: match random.below(8) {
            0 => LARGEST_COUNT,
            1 => random.below(9) as u32,
            _ => 0,
        },
        ..Summary::default()
    };
    for (place, (address, settings)) in summary.lines.iter_mut().zip(keys) {
        *place = line(random, address, settings);
    }
    summary
}

/// A summary to be handed in: good, or wrong in one of many ways, or in two.
pub fn handed_in(random: &mut Random, pairs: &[(u16, u8)]) -> Summary {
    let mut summary = summary(random, pairs);
    for _ in 0..[0, 0, 1, 1, 1, 2][random.below(6)] {
        damage(random, &mut summary);
    }
    summary
}

fn damage(random: &mut Random, summary: &mut Summary) {
    let used = summary.used().len();
    let above = LARGEST_COUNT + 1 + random.below(3) as u32;
    let place = random.below(used.max(1));
    let line = &mut summary.lines[place];
    match random.below(13) {
        0 => summary.count = [31, 32, 255, 256, 30, 1 << 16, u32::MAX][random.below(7)],
        1 => summary.count = summary.count.wrapping_add(1),
        2 => summary.count = summary.count.saturating_sub(1),
        3 if used < MOST_LINES => {
            let unused = &mut summary.lines[used + random.below(MOST_LINES - used)];
            match random.below(4) {
                0 => unused.settings = 1,
                1 => unused.lowest = NO_LEVEL,
                2 => unused.faulty = 1,
                _ => unused.good = 1 << 31,
            }
        }
        4 if used > 1 => summary.lines.swap(place, (place + 1) % used),
        5 if used > 1 => {
            let (address, settings) = summary.lines[(place + 1) % used].pair();
            (summary.lines[place].address, summary.lines[place].settings) = (address, settings);
        }
        6 => line.lowest = if line.lowest == NO_LEVEL { 5 } else { NO_LEVEL },
        7 => {
            line.highest = if line.highest == NO_LEVEL {
                5
            } else {
                NO_LEVEL
            }
        }
        8 => line.good = if line.good == 0 { 1 } else { 0 },
        9 => line.good = above,
        10 => line.faulty = above,
        11 => summary.others = [above, u32::MAX][random.below(2)],
        _ => line.settings ^= 1 << random.below(16),
    }
}

#[cfg(test)]
mod tests {
    use super::*;
    use crate::random::SEED;
    use crate::reading::summaries;

    #[test]
    fn summaries_handed_in_have_every_outcome() {
        let mut random = Random::new(SEED, 0);
        let mut seen = [0u32; 38];
        let mut counts = [0u32; MOST_LINES + 1];
        for _ in 0..10_000 {
            let pairs = pairs(&mut random);
            let page = handed_in(&mut random, &pairs);
            let odd = usize::from(random.one_in(16));
            let mut sheet = vec![BLANK; random.below(3) * SLOT + odd];
            let case = pair_save(&mut random, &pairs);
            let kept = summaries::save(&mut sheet, &page, &case.entry(), usize::MAX);
            seen[kept
                .answer
                .err()
                .map_or(0, |fault| usize::from(fault.number()))] += 1;
            counts[kept.summary.used().len()] += 1;
        }
        for number in [0, 12, 13, 24, 37] {
            assert!(seen[number] > 100, "{number}: {seen:?}");
        }
        assert!(
            counts[30] > 500 && counts[0] > 10 && counts[29] > 100,
            "{counts:?}"
        );
    }

    #[test]
    fn sheets_have_up_to_thirty_pairs_and_more() {
        let mut random = Random::new(SEED, 0);
        let (mut full, mut others) = (0, 0);
        for _ in 0..1_000 {
            let pairs = pairs(&mut random);
            let sheet = summarised_sheet(&mut random, &pairs);
            let page = summaries::summary_of(&sheet).unwrap_or_default();
            full += u32::from(page.count == 30);
            others += u32::from(page.others > 0);
        }
        assert!(full > 50 && others > 30, "{full} {others}");
    }
}
