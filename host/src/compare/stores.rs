//! Saves told as their stores: compared, and made as a host makes them, held to the saves.

use super::cuts::{record_of, stores_of};
use super::{check, in_parts, same, Check, Hex, Verdict};
use crate::calls::Stores;
use crate::generate::{self, SaveCase};
use crate::random::Random;
use crate::reading::sheet;
use crate::types::stores::{SaveStores, MOST_STORES};
use crate::types::{Answer, Fault, Slot, BLANK, LARGEST_SHEET, SLOT};

/// The comparisons of cores that tell a save's stores.
pub fn checks<L: Stores, R: Stores>() -> Vec<Check<L, R>> {
    vec![
        check("stores told, of every sheet", |l, r, plan| {
            of_every_sheet(l, r, plan.seed, plan.told_saves)
        }),
        check("stores told, made in order, left", |l, _, plan| {
            made_in_order(l, plan.seed, plan.told_saves)
        }),
        check("stores told, made in order, right", |_, r, plan| {
            made_in_order(r, plan.seed, plan.told_saves)
        }),
        check("stores told, all but the last, left", |l, _, plan| {
            all_but_the_last(l, plan.seed, plan.told_saves)
        }),
        check("stores told, all but the last, right", |_, r, plan| {
            all_but_the_last(r, plan.seed, plan.told_saves)
        }),
        check("stores told, a host's histories, left", |l, _, plan| {
            histories(l, plan.seed, plan.told_saves / 8)
        }),
        check("stores told, a host's histories, right", |_, r, plan| {
            histories(r, plan.seed, plan.told_saves / 8)
        }),
    ]
}

/// A sheet of any size: one that saves with cuts left, a hostile one, or a blank one whose size
/// need not be allowed.
fn sheet_of(random: &mut Random) -> Vec<u8> {
    match random.below(8) {
        0 => vec![BLANK; random.below(130)],
        1 if random.one_in(8) => vec![BLANK; LARGEST_SHEET - 33 + random.below(100)],
        2..=4 => generate::hostile_sheet(random),
        _ => {
            let slots = random.below(12);
            let mut sheet = vec![BLANK; slots * SLOT];
            for _ in 0..random.below(slots + 2) {
                let (case, allowance) = (generate::save_case(random), generate::allowance(random));
                // A refused one leaves the sheet as it was.
                let _ = sheet::save(&mut sheet, &case.entry(), allowance);
            }
            sheet
        }
    }
}

fn in_words(sheet: &[u8], case: &SaveCase) -> String {
    let slots = sheet.chunks(SLOT).take(30);
    let slots: String = slots.map(|slot| format!("\n    {slot:02x?}")).collect();
    let (entry, bytes) = (case.entry(), sheet.len());
    format!("saving {entry:?} on a sheet of {bytes} bytes{slots}")
}

/// Makes stores. One that goes nowhere is left out.
fn make(sheet: &mut [u8], stores: &[(usize, u8)]) {
    for &(place, byte) in stores {
        if let Some(there) = sheet.get_mut(place) {
            *there = byte;
        }
    }
}

/// Both cores asked the same.
fn of_every_sheet<L: Stores, R: Stores>(left: &L, right: &R, seed: u64, count: usize) -> Verdict {
    in_parts(count, |part| {
        let mut random = Random::new(seed, part as u64);
        let sheet = sheet_of(&mut random);
        for _ in 0..4 {
            let case = generate::save_case(&mut random);
            let told = left.save_stores(&sheet, &case.entry());
            let other = right.save_stores(&sheet, &case.entry());
            same(told, other, || in_words(&sheet, &case))?;
        }
        Ok(4)
    })
}

/// The sheet that a save leaves, and what it answers as a told save has it.
fn saved(sheet: &[u8], case: &SaveCase, allowance: usize) -> (Vec<u8>, Answer<usize>) {
    let mut after = sheet.to_vec();
    let answer = sheet::save(&mut after, &case.entry(), allowance);
    (after, answer)
}

/// What a save with so many stores answers by what was told.
fn answer(told: &SaveStores, allowance: usize) -> Result<usize, u8> {
    match told.number {
        0 => Ok(allowance.min(usize::from(told.count))),
        number => Err(number),
    }
}

/// The first k stores made one by one, for every k, and then the stores in steps, each made
/// backwards: each time the sheet is the one that a save with as many stores leaves.
fn made_in_order<C: Stores>(core: &C, seed: u64, count: usize) -> Verdict {
    in_parts(count, |part| {
        let mut random = Random::new(seed, part as u64);
        let sheet = sheet_of(&mut random);
        let case = generate::save_case(&mut random);
        let told = core.save_stores(&sheet, &case.entry());
        let stores = told.stores();
        let mut made = sheet.clone();
        for k in 0..=MOST_STORES + 1 {
            let asked = || format!("{k} stores of {}", in_words(&sheet, &case));
            let (expected, answered) = saved(&sheet, &case, k);
            let answered = answered.map_err(|fault| fault.number());
            same(answer(&told, k), answered, asked)?;
            same(made == expected, true, asked)?;
            make(&mut made, stores.get(k..k + 1).unwrap_or_default());
        }
        let mut made = sheet.clone();
        let mut done = 0;
        while done < stores.len() {
            let step = (1 + random.below(8)).min(stores.len() - done);
            let mut several = stores[done..done + step].to_vec();
            several.reverse();
            make(&mut made, &several);
            done += step;
            let (expected, _) = saved(&sheet, &case, done);
            same(made == expected, true, || {
                format!("steps of {done} stores of {}", in_words(&sheet, &case))
            })?;
        }
        Ok(MOST_STORES as u64 + 2)
    })
}

/// Any of the stores but the last, in any order and again: the slot is blank or spoiled and every
/// other byte stays. With all of them and then the last the sheet is the one that the save leaves.
fn all_but_the_last<C: Stores>(core: &C, seed: u64, count: usize) -> Verdict {
    in_parts(count, |part| {
        let mut random = Random::new(seed, part as u64);
        let sheet = sheet_of(&mut random);
        let case = generate::save_case(&mut random);
        let told = core.save_stores(&sheet, &case.entry());
        let stores = told.stores();
        let Some((last, others)) = stores.split_last() else {
            return Ok(1);
        };
        let slot = told.slot as usize;
        let mut made = sheet.clone();
        let many = random.below(2 * others.len() + 1);
        for _ in 0..many {
            make(&mut made, &[others[random.below(others.len())]]);
        }
        let asked = || in_words(&sheet, &case);
        let state = sheet::look(&made, slot);
        let unclosed = matches!(state, Ok(Slot::Blank | Slot::Spoiled));
        same(unclosed, true, || format!("{state:?} after {}", asked()))?;
        // The slot is there, or it could not have been looked at.
        let (start, end) = (slot * SLOT, (slot + 1) * SLOT);
        same(Hex(&made[..start]), Hex(&sheet[..start]), asked)?;
        same(Hex(&made[end..]), Hex(&sheet[end..]), asked)?;
        make(&mut made, others);
        make(&mut made, &[*last]);
        let (expected, _) = saved(&sheet, &case, usize::MAX);
        same(made == expected, true, asked)?;
        Ok(2)
    })
}

/// Histories of told saves, refused ones among them, each cut anywhere, on a blank sheet: after
/// each the number and the whole list are held to the paper, and a broken one to its slot.
fn histories<C: Stores>(core: &C, seed: u64, count: usize) -> Verdict {
    in_parts(count, |part| {
        let mut random = Random::new(seed, part as u64);
        let slots = random.below(20);
        let mut card = vec![BLANK; slots * SLOT];
        let (mut records, mut used) = (Vec::new(), 0);
        let saves = slots + slots / 2 + 2;
        for _ in 0..saves {
            let case = generate::save_case(&mut random);
            let cut = generate::allowance(&mut random);
            let all = stores_of(&case);
            let (number, made) = match record_of(&case) {
                Err(fault) => (fault.number(), 0),
                Ok(_) if used == slots => (Fault::Full.number(), 0),
                Ok(record) => {
                    used += usize::from(cut > 0);
                    records.extend((cut >= all).then_some(record));
                    (0, cut.min(all))
                }
            };
            let told = core.save_stores(&card, &case.entry());
            let stores = told.stores();
            let asked = || format!("{cut} stores of {}", in_words(&card, &case));
            same(told.number, number, asked)?;
            same(stores.len().min(cut), made, asked)?;
            make(&mut card, &stores[..made]);
            let asked = || format!("the card after {cut} stores of {:?}", case.entry());
            same(sheet::list(&card), Ok(records.clone()), asked)?;
            if 0 < made && made < all {
                same(sheet::look(&card, used - 1), Ok(Slot::Spoiled), asked)?;
            }
        }
        Ok(saves as u64)
    })
}
