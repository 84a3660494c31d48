//! Enraf item records compared.

use super::{check, in_parts, same, Check, Difference, Hex, Verdict};
use crate::calls::Items;
use crate::generate::{self, AskedCase};
use crate::random::Random;
use crate::types::items::{Item, ItemAsked, LONGEST_RECORD};

/// What out-buffers hold before a write, so that a byte changed too many shows.
const BEFORE: u8 = 0xA5;
/// Bytes of the out-buffers, more than any record has.
const ROOM: usize = LONGEST_RECORD + 4;

/// The comparisons of cores that read and write item records.
pub fn checks<L: Items, R: Items>() -> Vec<Check<L, R>> {
    vec![
        check("items, all short texts", |l, r, _| short_texts(l, r)),
        check("items, all letters and addresses", |l, r, _| heads(l, r)),
        check("items, all kinds and errors written", |l, r, _| kinds(l, r)),
        check("items, all lengths and rooms", |l, r, plan| {
            rooms(l, r, plan.seed)
        }),
        check("items, records with one byte changed", |l, r, plan| {
            changed(l, r, plan.seed, plan.changed_items)
        }),
        check("items, random and damaged", |l, r, plan| {
            random_items(l, r, plan.seed, plan.items)
        }),
    ]
}

/// Reads one record with both and answers whether it is read. Written again, it is the same record.
fn read<L: Items, R: Items>(left: &L, right: &R, record: &[u8]) -> Result<bool, Difference> {
    let told = left.read_item(record);
    let asked = || format!("reading {:02x?} \"{}\"", record, record.escape_ascii());
    same(told, right.read_item(record), asked)?;
    if let Ok(item) = told {
        let mut out = [BEFORE; ROOM];
        let wrote = left.write_item(&item.asked(), &mut out);
        same(wrote, Ok(record.len()), asked)?;
        same(Hex(&out[..record.len().min(ROOM)]), Hex(record), asked)?;
    }
    Ok(told.is_ok())
}

/// Writes one item with both into so many bytes. What is written reads as the same item.
fn write<L: Items, R: Items>(
    left: &L,
    right: &R,
    item: &ItemAsked,
    room: usize,
) -> Result<(), Difference> {
    let mut out = [BEFORE; ROOM];
    let mut other = [BEFORE; ROOM];
    let room = room.min(ROOM);
    let wrote = left.write_item(item, &mut out[..room]);
    let wrote_other = right.write_item(item, &mut other[..room]);
    let asked = || format!("writing {item:?} into {room} bytes");
    same((wrote, Hex(&out)), (wrote_other, Hex(&other)), asked)?;
    if let Ok(bytes) = wrote {
        let told = left.read_item(&out[..bytes.min(ROOM)]);
        same(told.as_ref().map(Item::asked), Ok(*item), asked)?;
    }
    Ok(())
}

/// Every text of two letters and up to four characters, those that mean something and those just
/// beside them.
fn short_texts<L: Items, R: Items>(left: &L, right: &R) -> Verdict {
    const SIGNS: &[u8] = b"&!=09/:Aa ~\x7F\x1F\x03\xB0";
    in_parts(SIGNS.len(), |part| {
        let mut asked = 0;
        for length in 0..=4u32 {
            for number in 0..SIGNS.len().pow(length.saturating_sub(1)) {
                let mut text = b"QQ".to_vec();
                let mut rest = number * SIGNS.len() + part;
                for _ in 0..length {
                    text.push(SIGNS[rest % SIGNS.len()]);
                    rest /= SIGNS.len();
                }
                read(left, right, &generate::framed(b"501", &text))?;
                asked += 1;
            }
        }
        Ok(asked)
    })
}

/// Every two bytes as letters and as transmission digits, every byte as the CIU's, and every
/// number that a write may be given for either.
fn heads<L: Items, R: Items>(left: &L, right: &R) -> Verdict {
    in_parts(256, |part| {
        let first = part as u8;
        let mut item = ItemAsked {
            ciu: 5,
            gauge: 1,
            letters: *b"QQ",
            kind: 1,
            error: 0,
            data: &[],
        };
        read(left, right, &generate::framed(&[first, b'0', b'1'], b"QQ"))?;
        for second in 0..=u8::MAX {
            read(left, right, &generate::framed(b"501", &[first, second]))?;
            read(
                left,
                right,
                &generate::framed(&[b'5', first, second], b"QQ"),
            )?;
            item.letters = [first, second];
            write(left, right, &item, ROOM)?;
            item.letters = *b"QQ";
            let number = u16::from_be_bytes([first, second]);
            write(
                left,
                right,
                &ItemAsked {
                    ciu: number,
                    ..item
                },
                ROOM,
            )?;
            write(
                left,
                right,
                &ItemAsked {
                    gauge: number,
                    ..item
                },
                ROOM,
            )?;
        }
        Ok(5 * 256)
    })
}

/// Every kind of item with and without data, and every error number.
fn kinds<L: Items, R: Items>(left: &L, right: &R) -> Verdict {
    in_parts(256, |part| {
        let kind = part as u8;
        let item = ItemAsked {
            ciu: 9,
            gauge: 99,
            letters: *b"AZ",
            kind,
            error: 0,
            data: &[],
        };
        let mut asked = 0;
        for error in [0, 1, 51, 999, 1_000] {
            for data in [
                &b""[..],
                b"x",
                b"&",
                b"0123456789abcdef",
                b"0123456789abcdefg",
            ] {
                write(
                    left,
                    right,
                    &ItemAsked {
                        error,
                        data,
                        ..item
                    },
                    ROOM,
                )?;
                asked += 1;
            }
        }
        for low in 0..=u8::MAX {
            let error = u16::from_be_bytes([kind, low]);
            let item = ItemAsked {
                kind: 6,
                error,
                ..item
            };
            write(left, right, &item, ROOM)?;
            asked += 1;
        }
        Ok(asked)
    })
}

/// Items of every kind and every length of data, written into every number of bytes.
fn rooms<L: Items, R: Items>(left: &L, right: &R, seed: u64) -> Verdict {
    const TIMES: usize = 8;
    in_parts(8 * 20, |part| {
        let (kind, length) = ((part % 8) as u8, part / 8);
        let mut random = Random::new(seed, part as u64);
        for _ in 0..TIMES {
            let case = AskedCase {
                kind,
                data: (0..length).map(|_| b'0' + random.below(10) as u8).collect(),
                ..generate::item(&mut random)
            };
            let case = AskedCase {
                error: if kind == 6 { case.error } else { 0 },
                ..case
            };
            for room in 0..=ROOM {
                write(left, right, &case.asked(), room)?;
            }
        }
        Ok((TIMES * (ROOM + 1)) as u64)
    })
}

/// Good records with each byte changed to every value, each cut short at either end, and each with
/// a byte put in anywhere.
/// One changed bit is always refused.
fn changed<L: Items, R: Items>(left: &L, right: &R, seed: u64, count: usize) -> Verdict {
    in_parts(count, |part| {
        let mut random = Random::new(seed, part as u64);
        let mut out = [0; LONGEST_RECORD];
        let case = generate::item(&mut random);
        write(left, right, &case.asked(), ROOM)?;
        let bytes = left.write_item(&case.asked(), &mut out);
        let record = &out[..bytes.unwrap_or(0).min(LONGEST_RECORD)];
        let mut asked = 0;
        for place in 0..record.len() {
            for value in 0..=u8::MAX {
                let mut changed = record.to_vec();
                changed[place] = value;
                let is_read = read(left, right, &changed)?;
                if (value ^ record[place]).is_power_of_two() {
                    same(is_read, false, || {
                        format!("one bit changed, {changed:02x?}")
                    })?;
                }
                // The same with a good block check, so that what was changed is judged.
                generate::mend(&mut changed);
                read(left, right, &changed)?;
                asked += 2;
            }
            let mut longer = record.to_vec();
            longer.insert(place, b'0');
            generate::mend(&mut longer);
            read(left, right, &longer)?;
            read(left, right, &record[..place])?;
            read(left, right, &record[place..])?;
        }
        for more in 0..=u8::MAX {
            read(left, right, &[record, &[more]].concat())?;
            asked += 1;
        }
        Ok(asked)
    })
}

/// Records and items of any kind, good and damaged.
fn random_items<L: Items, R: Items>(left: &L, right: &R, seed: u64, count: usize) -> Verdict {
    const PART: usize = 1_000;
    in_parts(count.div_ceil(PART), |part| {
        let mut random = Random::new(seed, part as u64);
        for _ in 0..PART {
            read(left, right, &generate::record(&mut random))?;
            let case = generate::item_asked(&mut random);
            let room = match random.coin() {
                true => ROOM,
                false => random.below(ROOM + 1),
            };
            write(left, right, &case.asked(), room)?;
        }
        Ok(2 * PART as u64)
    })
}
