//! The whole way: replies written, drawn on the lines, handed over in batches, saved with the power
//! cut here and there, and listed. One core is held to a listing that is made from the readings
//! alone.

use super::lines::{in_batches, in_runs};
use super::{check, in_parts, same, Check, Difference, Verdict};
use crate::calls::{Core, Drawings, Lines};
use crate::generate::{self, Came, Drawn, Sent};
use crate::random::Random;
use crate::reading::frame;
use crate::types::drawings::Drawing;
use crate::types::lines::{PulseTimes, SoFar};
use crate::types::{Answer, Entry, Fault, Reading, Temperature, BLANK, LINE, SLOT};

/// Most samples of a month, about.
const ENOUGH: usize = 30_000;

/// The comparisons of cores that hear, save and list.
pub fn checks<L: Core + Drawings + Lines, R: Core + Drawings + Lines>() -> Vec<Check<L, R>> {
    vec![
        check("way, wire to listing, left", |l, _, plan| {
            months(l, plan.seed, plan.months)
        }),
        check("way, wire to listing, right", |_, r, plan| {
            months(r, plan.seed, plan.months)
        }),
    ]
}

/// The bits of bytes, bit 1 the highest of the first.
fn bits(bytes: &[u8]) -> Vec<bool> {
    let bit = |n: usize| bytes[n / 8] >> (7 - n % 8) & 1 == 1;
    (0..8 * bytes.len()).map(bit).collect()
}

/// What is listed of a reply after its address, and the bytes that its save stores: none where the
/// lines spoil it. A reply that comes whole says its reading, and nobody reads it for that.
fn says(sent: &Sent, written: &[u8]) -> Result<Option<(String, usize)>, Difference> {
    let read = |bytes: &[u8]| {
        let answer = frame::read_reply(sent.settings, sent.address, 8 * bytes.len(), bytes);
        (answer, bytes.len())
    };
    let (answer, size) = match &sent.came {
        Came::Whole => (Ok(sent.reading), written.len()),
        Came::OneBit(n) => {
            let mut bytes = written.to_vec();
            bytes[(n - 1) / 8] ^= 0x80 >> ((n - 1) % 8);
            let (answer, size) = read(&bytes);
            same(answer.is_err(), true, || {
                format!("{sent:?} is read with a bit changed")
            })?;
            (answer, size)
        }
        Came::Bits(bytes) => read(bytes),
        Came::Spoiled(_) => return Ok(None),
    };
    Ok(Some((words(answer), size)))
}

/// A reading, or a fault, as a listing has it.
fn words(answer: Answer<Reading>) -> String {
    match answer {
        Ok(reading) => {
            let temperature = match reading.temperature {
                Temperature::Degrees(tenths) => tenths.to_string(),
                Temperature::Above => "above".to_string(),
                Temperature::Below => "below".to_string(),
                Temperature::Absent => "-".to_string(),
            };
            let (one, zero) = (u8::from(reading.alarm1), u8::from(reading.alarm0));
            format!("{} {temperature} {one} {zero}", reading.level)
        }
        Err(fault) if fault.number() == 7 => format!("fault 7 {}", fault.place()),
        Err(fault) => format!("fault {}", fault.number()),
    }
}

/// A month drawn, and the listing that it is to give.
struct Month {
    sent: Vec<Sent>,
    samples: Vec<u8>,
    listing: String,
}

/// Writes and draws replies, and lists them as their readings say: no sheet is looked at.
fn month<C: Core + Drawings>(
    core: &C,
    random: &mut Random,
    times: PulseTimes,
    slots: usize,
) -> Result<Month, Difference> {
    let mut drawn = Drawn::default();
    let mut month = Month {
        sent: Vec::new(),
        samples: Vec::new(),
        listing: format!("sheet {slots}\n"),
    };
    let (mut used, mut records) = (0, 0);
    let most = slots + slots / 2 + 2;
    while month.sent.len() < most && drawn.samples.len() < ENOUGH {
        let sent = generate::sent(random);
        let mut out = [0; 7];
        let size = core.write_reply(sent.settings, sent.address, &sent.reading, &mut out);
        let asked = || format!("writing {sent:?}");
        let written = &out[..same_size(&sent.reading, size, asked)?];
        match &sent.came {
            Came::Whole if random.coin() => {
                let samples = draw(core, random, times, written)?;
                drawn.message_as(random, times, bits(written), &samples);
            }
            Came::Whole => drawn.message_of(random, times, bits(written)),
            Came::OneBit(n) => {
                let mut bits = bits(written);
                bits[n - 1] ^= true;
                drawn.message_of(random, times, bits);
            }
            Came::Bits(bytes) => drawn.message_of(random, times, bits(bytes)),
            Came::Spoiled(n) => drawn.spoiled_after(random, times, bits(written)[..*n].to_vec()),
        }
        if let Some((words, size)) = says(&sent, written)? {
            let (minute, address) = (sent.minute, sent.address);
            if sent.allowance > 0 && used < slots {
                let line = match sent.allowance < 11 + size {
                    true => format!("{used} spoiled\n"),
                    false => format!("{used} {minute} {address} {words}\n"),
                };
                records += usize::from(sent.allowance >= 11 + size);
                month.listing += &line;
                used += 1;
            }
        }
        month.sent.push(sent);
    }
    month.listing += &format!("records {records}\n");
    month.samples = drawn.samples;
    Ok(month)
}

/// A reply as the core draws it, in batches of any room; the gap is not drawn.
fn draw<C: Drawings>(
    core: &C,
    random: &mut Random,
    times: PulseTimes,
    reply: &[u8],
) -> Result<Vec<u8>, Difference> {
    let drawing = Drawing {
        low: times.least + random.below(times.most - times.least + 1),
        still: 1 + random.below((times.gap - 1).min(6)),
        count: 8 * reply.len(),
        message: reply,
    };
    let mut samples = Vec::new();
    let mut out = vec![0; 1 + random.below(200)];
    while samples.len() < drawing.count * (drawing.low + drawing.still) {
        let drew = core.draw(&drawing, samples.len(), &mut out);
        let count = drew.unwrap_or(0).min(out.len());
        same(count > 0, true, || format!("{drawing:?} is not drawn"))?;
        samples.extend_from_slice(&out[..count]);
    }
    Ok(samples)
}

/// The bytes that a reply takes, which the core must have written.
fn same_size(
    reading: &Reading,
    size: Answer<usize>,
    asked: impl FnOnce() -> String,
) -> Result<usize, Difference> {
    let expected = match reading.temperature {
        Temperature::Absent => 5,
        _ => 7,
    };
    same(size, Ok(expected), asked)?;
    Ok(expected)
}

/// The listing, line by line.
fn lines<C: Core>(core: &C, sheet: &[u8]) -> Answer<Vec<u8>> {
    let mut text = Vec::new();
    let mut line = [0; LINE];
    let mut put = |answer: Answer<usize>, line: &[u8]| -> Answer<()> {
        text.extend_from_slice(line.get(..answer?).ok_or(Fault::Short)?);
        Ok(())
    };
    put(core.head_line(sheet, &mut line), &line)?;
    for slot in 0..sheet.len() / SLOT {
        put(core.slot_line(sheet, slot, &mut line), &line)?;
    }
    put(core.last_line(sheet, &mut line), &line)?;
    Ok(text)
}

/// Months of any replies, any timing, batches and cuts.
fn months<C: Core + Drawings + Lines>(core: &C, seed: u64, count: usize) -> Verdict {
    in_parts(count, |part| {
        let mut random = Random::new(seed, part as u64);
        let times = generate::reply_times(&mut random);
        let slots = match random.below(16) {
            0 => 0,
            1 => 2_048,
            _ => random.below(24),
        };
        let month = month(core, &mut random, times, slots)?;
        let ends = generate::batches(&mut random, month.samples.len());
        let mut sheet = vec![BLANK; slots * SLOT];
        let mut polls = month.sent.iter();
        let asked = || {
            let runs = in_runs(&month.samples);
            let sent = &month.sent;
            format!("{sent:?} as {runs}, {times:?}, in batches {ends:?}, on {slots} slots")
        };
        in_batches(SoFar::default(), &ends, |so_far, from, to| {
            let told = core.hear_lines(so_far, times, &month.samples[from..to]);
            if told.count == 0 && told.number == 0 {
                return Ok(told);
            }
            let Some(sent) = polls.next() else {
                same("one message more than was sent", "none", asked)?;
                return Ok(told);
            };
            if told.count > 0 {
                let count = usize::from(told.count);
                let entry = Entry {
                    settings: sent.settings,
                    minute: sent.minute,
                    address: sent.address,
                    count,
                    reply: &told.message[..count.div_ceil(8).min(8)],
                };
                // A refusal, or how many stores were made, is seen in the listing.
                let _ = core.save(&mut sheet, &entry, sent.allowance);
            }
            Ok(told)
        })?;
        same(polls.len(), 0, asked)?;
        let mut whole = Vec::new();
        core.list(&sheet, &mut whole);
        let by_lines = lines(core, &sheet).unwrap_or_default();
        for listing in [whole, by_lines] {
            same(
                String::from_utf8_lossy(&listing),
                month.listing.as_str().into(),
                asked,
            )?;
        }
        Ok(month.sent.len() as u64)
    })
}
