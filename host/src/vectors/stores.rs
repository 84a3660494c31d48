//! A save told as its stores, request 19.

use super::{entry, GOOD};
use crate::calls::{Core, Stores};
use crate::types::stores::SaveStores;
use crate::types::{Entry, BLANK, SLOT};

/// The bench reply's stores, place and byte of each.
const BENCH: &str =
    "2:01 3:01 4:00 5:00 6:02 7:58 8:00 9:07 10:28 11:80 12:0E 13:50 14:00 15:00 1:0E 0:00";
const SILENT: &str = "2:01 3:01 4:00 5:00 6:02 7:58 8:00 9:07 10:00 1:09 0:00";
const LARGEST: &str = "2:01 3:0F 4:FF 5:FF 6:FF 7:FF 8:03 9:E7 10:40 11:FF 12:FF 13:FF 14:FF \
                       15:FF 16:FF 17:FF 18:FF 1:11 0:00";

/// The bench reply at minute 600, and the largest record that there is.
fn bench() -> Entry<'static> {
    entry(1, 7, GOOD)
}

fn largest() -> Entry<'static> {
    Entry {
        minute: u32::MAX,
        ..entry(15, 999, &[0xFF; 8])
    }
}

/// What must be told of stores that are written as the request writes them.
fn told(slot: u32, stores: &str) -> SaveStores {
    let mut told = SaveStores {
        slot,
        ..SaveStores::default()
    };
    for store in stores.split(' ') {
        let (place, byte) = store.split_once(':').expect("a place and a byte");
        let n = usize::from(told.count);
        told.places[n] = place.parse().expect("a place");
        told.bytes[n] = u8::from_str_radix(byte, 16).expect("a byte");
        told.count += 1;
    }
    told
}

fn refused(number: u8) -> SaveStores {
    SaveStores {
        number,
        ..SaveStores::default()
    }
}

/// A sheet of blank slots after the first stores of a save.
fn saved(core: &impl Core, slots: usize, entry: &Entry, allowance: usize) -> Vec<u8> {
    let mut sheet = vec![BLANK; slots * SLOT];
    assert_eq!(
        core.save(&mut sheet, entry, allowance),
        Ok(allowance.min(11 + entry.reply.len()))
    );
    sheet
}

/// The worked table, row by row.
pub fn the_table<C: Core + Stores>(core: &C) {
    let blank = |slots: usize| vec![BLANK; slots * SLOT];
    let mut foreign = blank(3);
    foreign[SLOT..2 * SLOT].fill(0);
    let silent = entry(1, 7, b"");
    let crooked = Entry {
        count: 41,
        ..entry(16, 1_000, GOOD)
    };
    let table = [
        (blank(2), bench(), told(0, BENCH)),
        (saved(core, 2, &bench(), 16), bench(), told(1, BENCH)),
        (saved(core, 2, &bench(), 15), bench(), told(1, BENCH)),
        (foreign, bench(), told(2, BENCH)),
        (saved(core, 2, &bench(), 1), silent, told(1, SILENT)),
        (blank(1), largest(), told(0, LARGEST)),
        (saved(core, 1, &largest(), 99), bench(), refused(13)),
        (blank(0), bench(), refused(13)),
        (vec![BLANK; 31], crooked, refused(12)),
    ];
    assert_eq!(
        [BENCH, SILENT, LARGEST].map(|row| told(0, row).count),
        [16, 11, 19]
    );
    for (sheet, entry, expected) in table {
        assert_eq!(core.save_stores(&sheet, &entry), expected, "{entry:?}");
    }
}

/// The refusals one after another, and a sheet that is a slot too large.
pub fn the_order_of_refusals<C: Core + Stores>(core: &C) {
    let sheet = [BLANK; SLOT];
    let crooked = |settings, address| Entry {
        count: 41,
        ..entry(settings, address, GOOD)
    };
    let number = |sheet: &[u8], entry: Entry| {
        let told = core.save_stores(sheet, &entry);
        assert_eq!(told, refused(told.number), "{entry:?}");
        told.number
    };
    assert_eq!(number(&sheet[..31], crooked(16, 1_000)), 12);
    assert_eq!(number(&sheet, crooked(16, 1_000)), 10);
    assert_eq!(number(&sheet, crooked(15, 1_000)), 11);
    let full = saved(core, 1, &largest(), 99);
    assert_eq!(number(&full, crooked(15, 999)), 14);
    assert_eq!(number(&full, entry(15, 999, GOOD)), 13);
    assert_eq!(number(&vec![BLANK; 65_568], bench()), 12);
}
