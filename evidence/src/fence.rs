//! Bytes lent right beside pages that nothing may touch: a read or write outside them ends the process.

use std::ffi::{c_int, c_void};

extern "C" {
    fn mmap(
        at: *mut c_void,
        len: usize,
        may: c_int,
        how: c_int,
        file: c_int,
        from: i64,
    ) -> *mut c_void;
    fn mprotect(at: *mut c_void, len: usize, may: c_int) -> c_int;
}

/// The bytes of a page, and the numbers that Linux gives to what may be done with it.
const PAGE: usize = 4096;
const NOTHING: c_int = 0;
const READ: c_int = 1;
const READ_AND_WRITE: c_int = 3;
const PRIVATE_AND_EMPTY: c_int = 0x22;

/// The side on which lent bytes touch the fence.
#[derive(Clone, Copy, PartialEq, Eq)]
pub enum Side {
    Before,
    Behind,
}

/// Pages that may be used between one before and one behind that may not; they stay until the process ends.
pub struct Fence {
    first: *mut u8,
    len: usize,
}

impl Fence {
    /// Pages for at least so many bytes, where the system gives them.
    pub fn new(most: usize) -> Option<Self> {
        let len = most.div_ceil(PAGE).max(1) * PAGE;
        // SAFETY: the system picks an unused place, so nothing that is in use changes.
        let whole = unsafe {
            mmap(
                std::ptr::null_mut(),
                len + 2 * PAGE,
                NOTHING,
                PRIVATE_AND_EMPTY,
                -1,
                0,
            )
        };
        if whole as isize == -1 {
            return None;
        }
        let first = whole.cast::<u8>().wrapping_add(PAGE);
        let fence = Fence { first, len };
        fence.may(READ_AND_WRITE).then_some(fence)
    }

    /// Lets the pages be used in a way.
    fn may(&self, may: c_int) -> bool {
        // SAFETY: the pages are this fence's own, and no lent bytes are held across this call.
        unsafe { mprotect(self.first.cast(), self.len, may) == 0 }
    }

    /// Lends a copy of these bytes, which must fit, so that they touch the fence on a side.
    pub fn lend(&mut self, bytes: &[u8], side: Side) -> &mut [u8] {
        assert!(bytes.len() <= self.len && self.may(READ_AND_WRITE));
        let from = match side {
            Side::Before => 0,
            Side::Behind => self.len - bytes.len(),
        };
        // SAFETY: the bytes lie within this fence's pages, which may be written and stay, and the loan keeps others off.
        let lent =
            unsafe { std::slice::from_raw_parts_mut(self.first.wrapping_add(from), bytes.len()) };
        lent.copy_from_slice(bytes);
        lent
    }

    /// Lends a copy of these bytes that may only be read.
    pub fn lend_to_read(&mut self, bytes: &[u8], side: Side) -> &[u8] {
        let (place, len) = {
            let lent = self.lend(bytes, side);
            (lent.as_ptr(), lent.len())
        };
        assert!(self.may(READ));
        // SAFETY: these are the bytes just lent, which may still be read.
        unsafe { std::slice::from_raw_parts(place, len) }
    }
}
