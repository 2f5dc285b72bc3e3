//! Memory with a page on either side that may not be touched: one byte read past a text ends the test at once.

use std::ffi::c_void;

const PAGE: usize = 4_096;
const ROOM: usize = 128 * PAGE;

const PROT_NONE: i32 = 0;
const PROT_READ_WRITE: i32 = 3;
const MAP_PRIVATE_ANONYMOUS: i32 = 0x22;

extern "C" {
    fn mmap(at: *mut c_void, length: usize, prot: i32, flags: i32, file: i32, offset: i64) -> *mut c_void;
    fn mprotect(at: *mut c_void, length: usize, prot: i32) -> i32;
    fn munmap(at: *mut c_void, length: usize) -> i32;
}

pub struct Fence {
    whole: *mut u8,
}

impl Fence {
    pub fn new() -> Fence {
        let length = ROOM + 2 * PAGE;
        // SAFETY: a fresh mapping of our own, at no fixed address.
        unsafe {
            let whole = mmap(std::ptr::null_mut(), length, PROT_NONE, MAP_PRIVATE_ANONYMOUS, -1, 0).cast::<u8>();
            assert!(whole as isize != -1, "no memory for a fence");
            assert_eq!(mprotect(whole.add(PAGE).cast(), ROOM, PROT_READ_WRITE), 0);
            Fence { whole }
        }
    }

    /// The text again, ending right at the fence, or beginning right behind the one before it.
    pub fn hold(&mut self, text: &[u8], at_end: bool) -> &[u8] {
        assert!(text.len() <= ROOM);
        let skipped = if at_end { ROOM - text.len() } else { 0 };
        // SAFETY: the room between the two pages is readable, writable and ours while `self` is borrowed.
        unsafe {
            let start = self.whole.add(PAGE + skipped);
            std::ptr::copy_nonoverlapping(text.as_ptr(), start, text.len());
            std::slice::from_raw_parts(start, text.len())
        }
    }
}

impl Drop for Fence {
    fn drop(&mut self) {
        // SAFETY: the mapping made in `new`.
        unsafe { munmap(self.whole.cast(), ROOM + 2 * PAGE) };
    }
}
