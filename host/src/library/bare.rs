//! The answers as the archive gives them: C structs.

use super::{ffi, LentRow, Library};
use crate::calls::Bare;

impl Bare for Library {
    type Poll = ffi::Poll;
    type Reply = ffi::Reply;
    type Slot = ffi::Slot;
    type Standing = ffi::Standing;

    #[inline]
    fn bare_read_poll(&self, poll: &[u8]) -> ffi::Poll {
        // SAFETY: the library reads the bytes of the slice alone.
        unsafe { ffi::sisal_read_poll(poll.as_ptr(), poll.len()) }
    }

    #[inline]
    fn bare_read_reply(
        &self,
        settings: u8,
        address: u16,
        count: usize,
        reply: &[u8],
    ) -> ffi::Reply {
        // SAFETY: the library reads the bytes of the slice alone.
        unsafe { ffi::sisal_read_reply(settings, address, count, reply.as_ptr(), reply.len()) }
    }

    #[inline]
    fn bare_read_reply_by_pairs(
        &self,
        settings: u8,
        address: u16,
        count: usize,
        reply: &[u8],
    ) -> ffi::Reply {
        // SAFETY: the library reads the bytes of the slice alone.
        unsafe {
            ffi::sisal_read_reply_by_pairs(settings, address, count, reply.as_ptr(), reply.len())
        }
    }

    #[inline]
    fn bare_look(&self, sheet: &[u8], slot: usize) -> ffi::Slot {
        // SAFETY: the library reads the bytes of the slice alone.
        unsafe { ffi::sisal_look(sheet.as_ptr(), sheet.len(), slot) }
    }

    #[inline]
    fn bare_look_up(&self, rows: &[LentRow], address: u16) -> ffi::Standing {
        // SAFETY: the library reads rows of the slice alone.
        unsafe { ffi::sisal_board_look_up(rows.as_ptr(), rows.len(), address) }
    }
}
