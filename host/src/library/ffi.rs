//! The calls of the archive as `include/sisalcove.h` declares them.
//!
//! Nothing checks these declarations against the proved sources, so they are few and plain, and
//! the comparisons run every one of them; `layout` compares their fields with the header's. A slice
//! is a pointer and a length.

use std::mem::{align_of, size_of};

/// The version of the header that these declarations follow.
pub const VERSION: u32 = 8;

#[repr(C)]
pub struct Poll {
    pub address: u16,
    pub raise: u8,
    pub reset: u8,
    pub number: u8,
}

#[repr(C)]
pub struct Reply {
    pub level: u16,
    pub tenths: i16,
    pub kind: u8,
    pub alarm1: u8,
    pub alarm0: u8,
    pub number: u8,
    pub place: u8,
}

#[repr(C)]
pub struct Done {
    pub count: usize,
    pub number: u8,
}

#[repr(C)]
pub struct Slot {
    pub reply: [u8; 8],
    pub minute: u32,
    pub address: u16,
    pub settings: u8,
    pub count: u8,
    pub state: u8,
    pub number: u8,
}

/// A row of the board as the library wants it lent. Every pattern of bytes is a row, and all zeros
/// is a free one.
#[repr(C)]
#[derive(Clone, Copy, Debug, Default, PartialEq, Eq)]
pub struct Row {
    pub minute: u32,
    pub address: u16,
    pub level: u16,
    pub tenths: i16,
    pub settings: u8,
    pub fault: u8,
    pub used: u8,
    pub kind: u8,
    pub alarm1: u8,
    pub alarm0: u8,
    pub heard: u32,
    pub faulty: u16,
    pub place: u8,
    pub gauge: u8,
}

/// What hearing answers.
#[repr(C)]
pub struct Heard {
    pub number: u8,
    pub place: u8,
}

#[repr(C)]
pub struct Standing {
    pub minute: u32,
    pub address: u16,
    pub level: u16,
    pub tenths: i16,
    pub settings: u8,
    pub fault: u8,
    pub number: u8,
    pub kind: u8,
    pub alarm1: u8,
    pub alarm0: u8,
    pub heard: u32,
    pub faulty: u16,
    pub place: u8,
    pub gauge: u8,
}

const _: () = {
    assert!(size_of::<Poll>() == 6);
    assert!(size_of::<Reply>() == 10);
    assert!(size_of::<Done>() == 16);
    assert!(size_of::<Slot>() == 20);
    assert!(size_of::<Row>() == 24 && align_of::<Row>() == 4);
    assert!(size_of::<Standing>() == 24);
    assert!(size_of::<Heard>() == 2);
};

#[cfg(test)]
layout_of! {
    "sisal_poll": Poll { address, raise, reset, number }
    "sisal_reply": Reply { level, tenths, kind, alarm1, alarm0, number, place }
    "sisal_done": Done { count, number }
    "sisal_slot": Slot { reply, minute, address, settings, count, state, number }
    "sisal_row": Row {
        minute, address, level, tenths, settings, fault, used, kind, alarm1, alarm0, heard, faulty, place, gauge
    }
    "sisal_heard": Heard { number, place }
    "sisal_standing": Standing {
        minute, address, level, tenths, settings, fault, number, kind, alarm1, alarm0, heard, faulty, place, gauge
    }
}

extern "C" {
    pub fn sisal_version() -> u32;
    pub fn sisal_form(count: usize, reply: *const u8, reply_bytes: usize) -> u8;
    pub fn sisal_read_poll(poll: *const u8, poll_bytes: usize) -> Poll;
    pub fn sisal_write_poll(
        address: u16,
        raise: u8,
        reset: u8,
        out: *mut u8,
        out_bytes: usize,
    ) -> Done;
    pub fn sisal_read_reply(
        settings: u8,
        address: u16,
        count: usize,
        reply: *const u8,
        reply_bytes: usize,
    ) -> Reply;
    pub fn sisal_read_reply_by_pairs(
        settings: u8,
        address: u16,
        count: usize,
        reply: *const u8,
        reply_bytes: usize,
    ) -> Reply;
    pub fn sisal_write_reply(
        settings: u8,
        address: u16,
        level: u16,
        kind: u8,
        tenths: i16,
        alarm1: u8,
        alarm0: u8,
        out: *mut u8,
        out_bytes: usize,
    ) -> Done;
    pub fn sisal_save(
        sheet: *mut u8,
        sheet_bytes: usize,
        settings: u8,
        minute: u32,
        address: u16,
        count: usize,
        reply: *const u8,
        reply_bytes: usize,
        allowance: usize,
    ) -> Done;
    pub fn sisal_look(sheet: *const u8, sheet_bytes: usize, slot: usize) -> Slot;
    pub fn sisal_slots(sheet: *const u8, sheet_bytes: usize) -> Done;
    pub fn sisal_head_line(
        sheet: *const u8,
        sheet_bytes: usize,
        out: *mut u8,
        out_bytes: usize,
    ) -> Done;
    pub fn sisal_slot_line(
        sheet: *const u8,
        sheet_bytes: usize,
        slot: usize,
        out: *mut u8,
        out_bytes: usize,
    ) -> Done;
    pub fn sisal_last_line(
        sheet: *const u8,
        sheet_bytes: usize,
        out: *mut u8,
        out_bytes: usize,
    ) -> Done;
    pub fn sisal_listing(
        sheet: *const u8,
        sheet_bytes: usize,
        out: *mut u8,
        out_bytes: usize,
    ) -> Done;
    pub fn sisal_board_enrol(
        rows: *mut Row,
        row_count: usize,
        settings: u8,
        address: u16,
        gauge: u8,
    ) -> u8;
    pub fn sisal_board_hear(
        rows: *mut Row,
        row_count: usize,
        minute: u32,
        address: u16,
        count: usize,
        reply: *const u8,
        reply_bytes: usize,
    ) -> Heard;
    pub fn sisal_board_remove(rows: *mut Row, row_count: usize, address: u16) -> u8;
    pub fn sisal_board_look_up(rows: *const Row, row_count: usize, address: u16) -> Standing;
    pub fn sisal_board_poll(
        rows: *const Row,
        row_count: usize,
        address: u16,
        raise: u8,
        reset: u8,
        out: *mut u8,
        out_bytes: usize,
    ) -> u8;
}
