//! Item records, request 13.

use crate::calls::Items;
use crate::types::items::{
    Item, ItemAsked, ALONE, ERROR, LONGEST_RECORD, SETTING, SETTING_TAKEN, TAKEN, VALUE,
};
use crate::types::Fault;

fn asked<'a>(letters: &[u8; 2], kind: u8, data: &'a [u8], error: u16) -> ItemAsked<'a> {
    ItemAsked {
        ciu: 5,
        gauge: 1,
        letters: *letters,
        kind,
        error,
        data,
    }
}

/// A record with a good frame and block check around a text.
fn framed(addresses: &[u8; 3], text: &[u8]) -> Vec<u8> {
    let mut record = [b"\x02", &addresses[..], b"BZ", text, b"\x03"].concat();
    let check = record[1..].iter().fold(0, |check, byte| check ^ byte);
    record.push(check);
    record
}

fn refusal(core: &impl Items, record: &[u8]) -> u8 {
    core.read_item(record).err().map_or(0, Fault::number)
}

/// Document 002's samples and the ends of the ranges, written and read.
pub fn both_ways(core: &impl Items) {
    let setting_16 = [b' '; 16];
    let long: &[u8] = &[
        0x02, 0x30, 0x30, 0x30, 0x42, 0x5A, 0x41, 0x41, 0x3D, 0x20, 0x20, 0x20, 0x20, 0x20, 0x20,
        0x20, 0x20, 0x20, 0x20, 0x20, 0x20, 0x20, 0x20, 0x20, 0x20, 0x03, 0x16,
    ];
    let table: [(ItemAsked, &[u8]); 8] = [
        (
            asked(b"BL", ALONE, b"", 0),
            &[0x02, 0x35, 0x30, 0x31, 0x42, 0x5A, 0x42, 0x4C, 0x03, 0x21],
        ),
        (asked(b"BL", TAKEN, b"", 0), b"\x02501BZBL&\x03\x07"),
        (asked(b"DF", SETTING, b"a", 0), b"\x02501BZDF=a\x03\x71"),
        (
            asked(b"DF", SETTING_TAKEN, b"A", 0),
            b"\x02501BZDF=A&\x03\x77",
        ),
        (
            asked(b"HA", VALUE, b"012.2345", 0),
            b"\x02501BZHA012.2345\x03\x3B",
        ),
        (asked(b"QQ", ERROR, b"", 51), b"\x02501BZQQ!051\x03\x3A"),
        (
            ItemAsked {
                ciu: 0,
                gauge: 0,
                ..asked(b"AA", SETTING, &setting_16, 0)
            },
            long,
        ),
        (
            ItemAsked {
                ciu: 9,
                gauge: 99,
                ..asked(b"ZZ", ERROR, b"", 999)
            },
            b"\x02999BZZZ!999\x03\x3A",
        ),
    ];
    for (item, record) in table {
        let mut out = [0; LONGEST_RECORD];
        assert_eq!(
            core.write_item(&item, &mut out),
            Ok(record.len()),
            "{item:?}"
        );
        assert_eq!(&out[..record.len()], record, "{item:?}");
        let told = core.read_item(record);
        assert_eq!(told.as_ref().map(Item::asked), Ok(item), "{record:02x?}");
    }
}

/// Records that are refused, in the order of the numbers.
pub fn refused_records(core: &impl Items) {
    let refusal = |record: &[u8]| refusal(core, record);
    let error = b"\x02501BZQQ!051\x03\x3A";
    let mut changed = *error;
    changed[13] = 0xBA;
    assert_eq!(refusal(&changed), 30);
    changed = *error;
    changed[6] = 0x52;
    assert_eq!(refusal(&changed), 30);
    assert_eq!(refusal(&error[..9]), 29);
    assert_eq!(refusal(&[&error[..], &[0]].concat()), 29);
    assert_eq!(refusal(&[]), 29);
    assert_eq!(refusal(&framed(b"@01", b"QQ")), 31);
    assert_eq!(refusal(&framed(b"5**", b"QQ")), 31);
    let texts: [&[u8]; 6] = [b"Qq", b"QQ!51", b"QQ!0511", b"QQ=", b"QQ=a=b", b"QQ&&"];
    for text in texts {
        assert_eq!(
            refusal(&framed(b"501", text)),
            32,
            "{}",
            text.escape_ascii()
        );
    }
    assert_eq!(refusal(&framed(b"501", b"QQ12345678901234567")), 32);
    assert_eq!(refusal(&framed(b"501", b"QQ&")), 0);
}

/// Items that are not written, and leave the output alone.
pub fn refused_writes(core: &impl Items) {
    let refusal = |item: ItemAsked, room: usize| {
        let mut out = [0xA5; LONGEST_RECORD];
        let answer = core.write_item(&item, &mut out[..room]);
        assert_eq!(out, [0xA5; LONGEST_RECORD]);
        answer.err().map_or(0, Fault::number)
    };
    let plain = asked(b"BL", ALONE, b"", 0);
    let of_ciu = ItemAsked {
        ciu: 10,
        ..asked(b"bl", ALONE, b"", 0)
    };
    assert_eq!(refusal(of_ciu, 0), 31);
    assert_eq!(
        refusal(
            ItemAsked {
                gauge: 300,
                ..plain
            },
            28
        ),
        31
    );
    assert_eq!(refusal(asked(b"Bl", ALONE, b"", 0), 0), 32);
    assert_eq!(refusal(asked(b"BL", ALONE, b"x", 0), 28), 32);
    assert_eq!(refusal(asked(b"BL", VALUE, b"", 0), 28), 32);
    assert_eq!(refusal(asked(b"BL", VALUE, b"1=2", 0), 28), 32);
    assert_eq!(refusal(asked(b"BL", ERROR, b"", 1_000), 28), 32);
    assert_eq!(refusal(plain, 9), 33);
}
