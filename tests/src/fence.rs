//! Octets lent right next to memory that may not be touched. A call that reads or writes beyond the
//! octets ends the whole test run with a signal instead of going unseen.

use std::ffi::{c_int, c_long, c_void};
use std::ptr;

unsafe extern "C" {
    fn mmap(
        at: *mut c_void,
        length: usize,
        protection: c_int,
        flags: c_int,
        file: c_int,
        offset: c_long,
    ) -> *mut c_void;
    fn mprotect(at: *mut c_void, length: usize, protection: c_int) -> c_int;
    fn munmap(at: *mut c_void, length: usize) -> c_int;
}

// The values that Linux uses.
const NO_ACCESS: c_int = 0;
const READ_AND_WRITE: c_int = 1 | 2;
const PRIVATE_AND_ANONYMOUS: c_int = 2 | 0x20;

/// A multiple of any page size, with room for the longest tables of a walk.
const SPAN: usize = 1 << 17;

/// Which end of the lent octets touches the fence.
#[derive(Clone, Copy, Debug)]
pub enum Side {
    Before,
    After,
}

impl Side {
    pub const BOTH: [Side; 2] = [Side::Before, Side::After];
}

/// A span of memory with an untouchable one on each side.
pub struct Fence {
    start: *mut u8,
}

impl Fence {
    pub fn build() -> Fence {
        // SAFETY: the mapping is new, nobody else has it, and it covers all three spans.
        let start: *mut u8 = unsafe {
            let at = ptr::null_mut();
            let start = mmap(at, 3 * SPAN, NO_ACCESS, PRIVATE_AND_ANONYMOUS, -1, 0);
            assert_ne!(start as isize, -1, "no memory for the fence");
            let middle = start.byte_add(SPAN);
            assert_eq!(mprotect(middle, SPAN, READ_AND_WRITE), 0);
            start.cast()
        };
        Fence { start }
    }

    /// Copies the octets next to the fence and returns the copy.
    pub fn lend(&mut self, octets: &[u8], side: Side) -> &mut [u8] {
        let middle = self.middle();
        let lent = match side {
            Side::Before => &mut middle[..octets.len()],
            Side::After => &mut middle[SPAN - octets.len()..],
        };
        lent.copy_from_slice(octets);
        lent
    }

    fn middle(&mut self) -> &mut [u8] {
        // SAFETY: the middle span is readable and writable, and borrowed with the fence.
        unsafe { std::slice::from_raw_parts_mut(self.start.add(SPAN), SPAN) }
    }
}

impl Drop for Fence {
    fn drop(&mut self) {
        // SAFETY: nothing borrows the spans any more.
        unsafe { munmap(self.start.cast(), 3 * SPAN) };
    }
}
