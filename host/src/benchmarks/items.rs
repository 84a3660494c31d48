//! Enraf item records: nanoseconds of one record.

use super::{taken, Benchmarks, POOL};
use crate::calls::{Bare, Items};
use crate::generate::{self, AskedCase};
use crate::stopwatch::Timing;
use crate::types::items::LONGEST_RECORD;
use std::hint::black_box;

impl<L: Bare + Items, R: Bare + Items> Benchmarks<'_, L, R> {
    /// Items of all kinds, written, and read again.
    pub fn items(&self, mut tell: impl FnMut(&Timing)) {
        let mut random = self.random();
        let items: Vec<AskedCase> = (0..POOL).map(|_| generate::item(&mut random)).collect();
        let mut records = Vec::with_capacity(POOL);
        for item in &items {
            let mut out = [0; LONGEST_RECORD];
            let bytes = self.right.write_item(&item.asked(), &mut out).unwrap_or(0);
            records.push(out[..bytes].to_vec());
        }
        let (left, right) = (reads(self.left, &records), reads(self.right, &records));
        self.time(&mut tell, "read an item record", POOL, left, right);
        let (left, right) = (writes(self.left, &items), writes(self.right, &items));
        self.time(&mut tell, "write an item record", POOL, left, right);
    }
}

fn reads<'a, C: Items>(core: &'a C, records: &'a [Vec<u8>]) -> impl FnMut() + 'a {
    move || {
        for record in records {
            taken(core.read_item(black_box(record)));
        }
    }
}

fn writes<'a, C: Items>(core: &'a C, items: &'a [AskedCase]) -> impl FnMut() + 'a {
    move || {
        let mut out = [0; LONGEST_RECORD];
        for item in items {
            let item = black_box(item).asked();
            taken(core.write_item(&item, black_box(&mut out)));
        }
    }
}
