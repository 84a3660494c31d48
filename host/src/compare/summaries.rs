//! Summaries compared, and held to a count of the list made pair by pair.

use super::{check, in_parts, same, Check, Difference, Hex, Verdict};
use crate::calls::Summaries;
use crate::generate;
use crate::random::Random;
use crate::reading::frame::read_reply;
use crate::reading::sheet;
use crate::types::summaries::{Kept, Line, Summary, MOST_LINES, NO_LEVEL};
use crate::types::{Entry, Fault, Record, BLANK, LARGEST_SHEET, SLOT};

/// The comparisons of cores that keep summaries.
pub fn checks<L: Summaries, R: Summaries>() -> Vec<Check<L, R>> {
    vec![
        check("summaries, worked out from sheets", |l, r, plan| {
            worked_out(l, r, plan.seed, plan.summarised)
        }),
        check("summaries, handed in with a save", |l, r, plan| {
            handed_in(l, r, plan.seed, plan.handed_in)
        }),
        check("summaries, histories cut anywhere", |l, r, plan| {
            histories(l, r, plan.seed, plan.summary_histories)
        }),
        check("summaries, a month, left", |l, _, plan| {
            month(l, plan.seed, plan.month_saves)
        }),
        check("summaries, a month, right", |_, r, plan| {
            month(r, plan.seed, plan.month_saves)
        }),
    ]
}

/// The summary of a list by the paper's words: the first thirty pairs that appear, each counted by
/// itself, and the number of records of all other pairs.
pub fn of_list(list: &[Record]) -> Summary {
    let pair = |record: &Record| (record.address, u16::from(record.settings));
    let mut pairs = Vec::new();
    for record in list {
        if pairs.len() < MOST_LINES && !pairs.contains(&pair(record)) {
            pairs.push(pair(record));
        }
    }
    pairs.sort_unstable();
    let mut summary = Summary {
        count: pairs.len() as u32,
        others: list
            .iter()
            .filter(|record| !pairs.contains(&pair(record)))
            .count() as u32,
        ..Summary::default()
    };
    for (line, (address, settings)) in summary.lines.iter_mut().zip(pairs) {
        let own = list
            .iter()
            .filter(|record| pair(record) == (address, settings));
        let replies = own.map(|record| {
            let count = usize::from(record.count);
            read_reply(record.settings, record.address, count, record.reply())
        });
        let (good, faulty): (Vec<_>, Vec<_>) = replies.partition(Result::is_ok);
        let levels = good.iter().flatten().map(|reading| reading.level);
        *line = Line {
            address,
            settings,
            lowest: levels.clone().min().unwrap_or(NO_LEVEL),
            highest: levels.max().unwrap_or(NO_LEVEL),
            good: good.len() as u32,
            faulty: faulty.len() as u32,
        };
    }
    summary
}

/// The list of a sheet by the independent reading, which is compared elsewhere.
fn list(sheet: &[u8]) -> Vec<Record> {
    sheet::list(sheet).unwrap_or_default()
}

/// A sheet in words.
fn in_words(sheet: &[u8]) -> String {
    let slots = sheet.chunks(SLOT).map(|slot| format!("\n    {slot:02x?}"));
    format!(
        "sheet of {} bytes{}",
        sheet.len(),
        slots.collect::<String>()
    )
}

/// Summaries of sheets of few and of many pairs, of hostile sheets, and of sheets of every size.
fn worked_out<L: Summaries, R: Summaries>(left: &L, right: &R, seed: u64, count: usize) -> Verdict {
    in_parts(count, |part| {
        let mut random = Random::new(seed, part as u64);
        let mut sheet = match random.below(16) {
            0 => generate::hostile_sheet(&mut random),
            _ => {
                let pairs = generate::pairs(&mut random);
                generate::summarised_sheet(&mut random, &pairs)
            }
        };
        match random.below(64) {
            0 => sheet.resize(sheet.len() + random.below(SLOT), BLANK),
            1 => sheet.resize(LARGEST_SHEET + SLOT * random.below(2), BLANK),
            _ => {}
        }
        let made = left.summary_of(&sheet);
        let asked = || format!("the summary of a {}", in_words(&sheet));
        same(made, right.summary_of(&sheet), asked)?;
        let is_sheet = sheet.len() % SLOT == 0 && sheet.len() <= LARGEST_SHEET;
        let expected = match is_sheet {
            true => Ok(of_list(&list(&sheet))),
            false => Err(Fault::Sheet),
        };
        same(made, expected, asked)?;
        Ok(2)
    })
}

/// Saves with both into copies of a sheet, and answers what was kept and the sheet after it.
fn save<L: Summaries, R: Summaries>(
    left: &L,
    right: &R,
    sheet: &[u8],
    summary: &Summary,
    entry: &Entry,
    allowance: usize,
) -> Result<(Kept, Vec<u8>), Difference> {
    let (mut after, mut other) = (sheet.to_vec(), sheet.to_vec());
    let kept = left.summary_save(&mut after, summary, entry, allowance);
    let kept_other = right.summary_save(&mut other, summary, entry, allowance);
    same((kept, Hex(&after)), (kept_other, Hex(&other)), || {
        in_question(sheet, summary, entry, allowance)
    })?;
    Ok((kept, after))
}

fn in_question(sheet: &[u8], summary: &Summary, entry: &Entry, allowance: usize) -> String {
    let sheet = in_words(sheet);
    format!("saving {entry:?} with {allowance} stores and {summary:?} into a {sheet}")
}

/// Summaries of every kind, handed in with a save into a small sheet: one that is not refused
/// leaves the sheet and the answer of the plain save, and changes no other pair's figures.
fn handed_in<L: Summaries, R: Summaries>(left: &L, right: &R, seed: u64, count: usize) -> Verdict {
    const PART: usize = 100;
    in_parts(count.div_ceil(PART), |part| {
        let mut random = Random::new(seed, part as u64);
        for _ in 0..PART {
            let pairs = generate::pairs(&mut random);
            let summary = generate::handed_in(&mut random, &pairs);
            let case = generate::pair_save(&mut random, &pairs);
            let odd = usize::from(random.one_in(16));
            let mut sheet = vec![BLANK; random.below(4) * SLOT + odd];
            if let (true, Some(first)) = (random.coin(), sheet.get_mut(..SLOT)) {
                first.copy_from_slice(&generate::hostile_slot(&mut random));
            }
            let allowance = generate::allowance(&mut random);
            let entry = case.entry();
            let (kept, after) = save(left, right, &sheet, &summary, &entry, allowance)?;
            let asked = || in_question(&sheet, &summary, &entry, allowance);
            if let Err(Fault::Summary | Fault::LargeCount) = kept.answer {
                same((kept.summary, Hex(&after)), (summary, Hex(&sheet)), asked)?;
                continue;
            }
            let mut plain = sheet.clone();
            let answer = sheet::save(&mut plain, &entry, allowance);
            same((kept.answer, Hex(&after)), (answer, Hex(&plain)), asked)?;
            own_figures(&summary, &kept, &entry, asked)?;
        }
        Ok(2 * PART as u64)
    })
}

/// A save changes only its own pair's figures, and those only if it closed its record.
fn own_figures(
    before: &Summary,
    kept: &Kept,
    entry: &Entry,
    asked: impl Fn() -> String,
) -> Result<(), Difference> {
    let after = &kept.summary;
    if kept.answer != Ok(11 + entry.reply.len()) {
        return same(after, before, asked);
    }
    let pair = (entry.address, u16::from(entry.settings));
    let others = |summary: &Summary| -> Vec<Line> {
        let used = summary.used().iter();
        used.filter(|line| line.pair() != pair).copied().collect()
    };
    same(others(after), others(before), &asked)?;
    let own = |summary: &Summary| summary.used().iter().any(|line| line.pair() == pair);
    let replies = |summary: &Summary| {
        let own = summary.used().iter().find(|line| line.pair() == pair);
        own.map_or(0, |line| u64::from(line.good) + u64::from(line.faulty))
    };
    let gets_a_line = own(before) || before.count < MOST_LINES as u32;
    let expected = match gets_a_line {
        true => (true, replies(before) + 1, before.others),
        false => (false, 0, before.others + 1),
    };
    same((own(after), replies(after), after.others), expected, &asked)?;
    let rises = after
        .used()
        .windows(2)
        .all(|two| two[0].pair() < two[1].pair());
    same(rises, true, &asked)
}

/// Histories of saves from any sheet, begun with its summary, each save cut after every number of
/// its stores: at any moment the summary is that of the list.
fn histories<L: Summaries, R: Summaries>(left: &L, right: &R, seed: u64, count: usize) -> Verdict {
    const SAVES: usize = 24;
    in_parts(count, |part| {
        let mut random = Random::new(seed, part as u64);
        let pairs = generate::pairs(&mut random);
        let mut sheet = generate::summarised_sheet(&mut random, &pairs);
        sheet.extend(vec![BLANK; random.below(SAVES) * SLOT]);
        let mut page = left.summary_of(&sheet).unwrap_or_default();
        let mut asked_of = 0;
        for _ in 0..SAVES {
            let case = generate::pair_save(&mut random, &pairs);
            let entry = case.entry();
            let chosen = generate::allowance(&mut random);
            let whole = 11 + entry.reply.len();
            let mut next = None;
            for allowance in (0..whole + 2).chain([chosen]) {
                let (kept, after) = save(left, right, &sheet, &page, &entry, allowance)?;
                let asked = || in_question(&sheet, &page, &entry, allowance);
                // The list changes only where a record was closed.
                let expected = match kept.answer == Ok(whole) {
                    true => of_list(&list(&after)),
                    false => page,
                };
                same(kept.summary, expected, asked)?;
                asked_of += 1;
                let refused = matches!(kept.answer, Err(Fault::Summary | Fault::LargeCount));
                same(refused, false, asked)?;
                next = Some((kept.summary, after));
            }
            if let Some((summary, after)) = next {
                (page, sheet) = (summary, after);
            }
        }
        same(page, of_list(&list(&sheet)), || {
            format!("the summary at the end, of a {}", in_words(&sheet))
        })?;
        Ok(asked_of)
    })
}

/// A month of saves on the largest sheet, held to the list as it grows.
fn month<C: Summaries>(core: &C, seed: u64, saves: usize) -> Verdict {
    let month = generate::month(&mut Random::new(seed, 0));
    let mut sheet = vec![BLANK; LARGEST_SHEET];
    let mut page = Summary::default();
    let mut asked = 0;
    for (place, case) in month.iter().take(saves).enumerate() {
        let entry = case.entry();
        let whole = 11 + entry.reply.len();
        for allowance in 0..=whole {
            let kept = core.summary_save(&mut sheet, &page, &entry, allowance);
            let in_words = || format!("save {place} of the month with {allowance} stores");
            same(kept.answer, Ok(allowance), in_words)?;
            if allowance < whole {
                same(kept.summary, page, in_words)?;
                sheet[place * SLOT..(place + 1) * SLOT].fill(BLANK);
            } else {
                page = kept.summary;
            }
            asked += 1;
        }
        if place % 60 == 59 {
            let in_words = || format!("the summary after save {place} of the month");
            let expected = of_list(&list(&sheet));
            same(page, expected, in_words)?;
            same(core.summary_of(&sheet), Ok(expected), in_words)?;
        }
    }
    Ok(asked)
}
