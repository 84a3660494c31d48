//! Rounds compared, and held to the same saves made one by one.

use super::{check, in_parts, same, Check, Difference, Hex, Verdict};
use crate::calls::Rounds;
use crate::generate::{self, SaveCase};
use crate::random::Random;
use crate::reading::{sheet, summaries};
use crate::types::rounds::{Round, Rounded, MOST_REPLIES};
use crate::types::summaries::Summary;
use crate::types::{Fault, Record, BLANK, LARGEST_SHEET, SLOT};

/// The comparisons of cores that save rounds.
pub fn checks<L: Rounds, R: Rounds>() -> Vec<Check<L, R>> {
    vec![
        check("rounds, of every kind", |l, r, plan| {
            of_every_kind(l, r, plan.seed, plan.rounds)
        }),
        check("rounds, cut after every store", |l, r, plan| {
            cut_everywhere(l, r, plan.seed, plan.cut_rounds)
        }),
        check("rounds, a month cut everywhere, left", |l, _, plan| {
            month(l, plan.seed, plan.month_saves)
        }),
        check("rounds, a month cut everywhere, right", |_, r, plan| {
            month(r, plan.seed, plan.month_saves)
        }),
    ]
}

/// A round with what it is saved into.
struct Case {
    sheet: Vec<u8>,
    page: Summary,
    round: Round,
}

impl Case {
    fn new(random: &mut Random, most: usize) -> Case {
        let pairs = generate::pairs(random);
        let round = generate::round(random, &pairs, most);
        let mut sheet = match random.below(4) {
            0 => generate::summarised_sheet(random, &pairs),
            _ => vec![BLANK; random.below(most + 2) * SLOT],
        };
        if random.one_in(12) {
            sheet.push(BLANK);
        }
        let page = match random.one_in(3) {
            true => generate::handed_in(random, &pairs),
            false => summaries::summary_of(&sheet).unwrap_or_default(),
        };
        Case { sheet, page, round }
    }

    fn in_words(&self, allowance: usize) -> String {
        let (page, round) = (&self.page, &self.round);
        let slots = self
            .sheet
            .chunks(SLOT)
            .map(|slot| format!("\n    {slot:02x?}"));
        let sheet: String = slots.collect();
        let bytes = self.sheet.len();
        format!("{round:?} with {allowance} stores, {page:?}, sheet of {bytes} bytes{sheet}")
    }

    /// The round saved one by one, by the plain save or the one with a summary: what is answered,
    /// and the sheet and the summary after it.
    fn one_by_one(&self, with_page: bool, allowance: usize) -> (Rounded, Vec<u8>, Summary) {
        let (mut sheet, mut page) = (self.sheet.clone(), self.page);
        let mut rounded = Rounded::default();
        if self.round.count > MOST_REPLIES {
            rounded.number = Fault::LargeRound.number();
        }
        for polled in self.round.replies() {
            let entry = polled.entry();
            let left = allowance - rounded.stores;
            if rounded.number != 0 || left == 0 {
                break;
            }
            let answer = match with_page {
                true => {
                    let kept = summaries::save(&mut sheet, &page, &entry, left);
                    page = kept.summary;
                    kept.answer
                }
                false => sheet::save(&mut sheet, &entry, left),
            };
            match answer {
                Ok(stores) => {
                    rounded.stores += stores;
                    rounded.closed += usize::from(stores == 11 + entry.reply.len());
                }
                Err(fault) => rounded.number = fault.number(),
            }
        }
        (rounded, sheet, page)
    }

    /// Saves the round with both, without a summary and with one, and holds them to the saves made
    /// one by one. Answers the stores of the plain round.
    fn save<L: Rounds, R: Rounds>(
        &self,
        left: &L,
        right: &R,
        allowance: usize,
    ) -> Result<usize, Difference> {
        let asked = || self.in_words(allowance);
        let (mut after, mut other) = (self.sheet.clone(), self.sheet.clone());
        let rounded = left.save_round(&mut after, &self.round, allowance);
        let rounded_other = right.save_round(&mut other, &self.round, allowance);
        same((rounded, Hex(&after)), (rounded_other, Hex(&other)), asked)?;
        let (expected, sheet, _) = self.one_by_one(false, allowance);
        same((rounded, Hex(&after)), (expected, Hex(&sheet)), asked)?;

        after.copy_from_slice(&self.sheet);
        other.copy_from_slice(&self.sheet);
        let told = left.summary_save_round(&mut after, &self.page, &self.round, allowance);
        let told_other = right.summary_save_round(&mut other, &self.page, &self.round, allowance);
        same((told, Hex(&after)), (told_other, Hex(&other)), asked)?;
        let (expected, sheet, page) = self.one_by_one(true, allowance);
        same((told, Hex(&after)), ((page, expected), Hex(&sheet)), asked)?;
        Ok(rounded.stores)
    }
}

/// Rounds of any number of replies, honest and hostile, with any allowance.
fn of_every_kind<L: Rounds, R: Rounds>(left: &L, right: &R, seed: u64, count: usize) -> Verdict {
    const PART: usize = 50;
    in_parts(count.div_ceil(PART), |part| {
        let mut random = Random::new(seed, part as u64);
        for _ in 0..PART {
            let case = Case::new(&mut random, MOST_REPLIES);
            let allowance = match random.below(4) {
                0 => random.below(600),
                1 => random.below(40),
                _ => usize::MAX,
            };
            case.save(left, right, allowance)?;
        }
        Ok(2 * PART as u64)
    })
}

/// Short rounds with every allowance up to all their stores and one more.
fn cut_everywhere<L: Rounds, R: Rounds>(left: &L, right: &R, seed: u64, count: usize) -> Verdict {
    in_parts(count, |part| {
        let mut random = Random::new(seed, part as u64);
        let case = Case::new(&mut random, 5);
        let stores = case.save(left, right, usize::MAX)?;
        for allowance in 0..=stores + 1 {
            case.save(left, right, allowance)?;
        }
        Ok(2 * (stores as u64 + 3))
    })
}

/// The stores of a save in the order of document 01: the place within the slot, and the byte.
fn stores_of(case: &SaveCase) -> Vec<(usize, u8)> {
    let entry = case.entry();
    let fixed = [1, entry.settings].into_iter();
    let fixed = fixed.chain(entry.minute.to_be_bytes());
    let fixed = fixed.chain(entry.address.to_be_bytes());
    let bytes = fixed
        .chain([entry.count as u8])
        .chain(entry.reply.iter().copied());
    let mut stores: Vec<(usize, u8)> = (2..).zip(bytes).collect();
    let length = stores.len() as u8;
    stores.extend([(1, length), (0, 0)]);
    stores
}

/// A month of rounds on the largest sheet, each cut after every number of its stores: one core is
/// held to the stores of document 01 and to the list.
fn month<C: Rounds>(core: &C, seed: u64, saves: usize) -> Verdict {
    let month = generate::month(&mut Random::new(seed, 0));
    let rounds: Vec<&[SaveCase]> = month[..saves.min(month.len())]
        .chunks(MOST_REPLIES)
        .collect();
    in_parts(rounds.len(), |part| {
        let mut random = Random::new(seed, part as u64);
        let mut sheet = vec![BLANK; LARGEST_SHEET];
        let mut page = Summary::default();
        for cases in &rounds[..part] {
            let round = generate::round_of(&mut random, cases);
            (page, _) = core.summary_save_round(&mut sheet, &page, &round, usize::MAX);
        }
        let before = sheet::list(&sheet).unwrap_or_default();
        same(before.len(), part * MOST_REPLIES, || {
            format!("the list before round {part}")
        })?;
        let round = generate::round_of(&mut random, rounds[part]);
        let start = part * MOST_REPLIES * SLOT;
        let end = start + MOST_REPLIES * SLOT;
        // The stores of the whole round in a row, and how many are made when each reply is closed.
        let (mut stores, mut ends) = (Vec::new(), Vec::new());
        for (n, case) in rounds[part].iter().enumerate() {
            let own = stores_of(case);
            stores.extend(own.iter().map(|(place, byte)| (n * SLOT + place, *byte)));
            ends.push(stores.len());
        }
        let mut expected = vec![BLANK; end - start];
        for allowance in 0..=stores.len() + 1 {
            if let Some(&(place, byte)) = allowance.checked_sub(1).and_then(|n| stores.get(n)) {
                expected[place] = byte;
            }
            let in_words = || format!("round {part} of the month with {allowance} stores");
            let rounded = Rounded {
                closed: ends.iter().filter(|&&end| end <= allowance).count(),
                stores: allowance.min(stores.len()),
                number: 0,
            };
            same(
                core.save_round(&mut sheet, &round, allowance),
                rounded,
                in_words,
            )?;
            same(Hex(&sheet[start..end]), Hex(&expected), in_words)?;
            sheet[start..end].fill(BLANK);
            let told = core.summary_save_round(&mut sheet, &page, &round, allowance);
            same(told.1, rounded, in_words)?;
            same(Hex(&sheet[start..end]), Hex(&expected), in_words)?;
            if allowance % 64 == 0 || allowance > stores.len() {
                let list: Vec<Record> = sheet::list(&sheet).unwrap_or_default();
                let beginning = list.get(..before.len());
                same(beginning, Some(&before[..]), in_words)?;
                same(list.len() - before.len(), rounded.closed, in_words)?;
                same(Ok(told.0), summaries::summary_of(&sheet), in_words)?;
            }
            sheet[start..end].fill(BLANK);
        }
        let blank = sheet[end..].iter().all(|&byte| byte == BLANK);
        same(blank, true, || format!("the sheet behind round {part}"))?;
        Ok(2 * (stores.len() as u64 + 2))
    })
}
