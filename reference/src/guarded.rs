//! Memory that ends where a page begins that may not be touched: a byte read or written past the end ends the program. Linux, x86-64.

use std::ffi::c_void;

const PAGE: usize = 4_096;

const NOT_AT_ALL: i32 = 0;
const READ: i32 = 1;
const READ_AND_WRITE: i32 = 3;
/// Memory of the process alone, behind which no file stands.
const PRIVATE_AND_NO_FILE: i32 = 0x22;

extern "C" {
    fn mmap(address: *mut c_void, length: usize, protection: i32, flags: i32, file: i32, offset: i64) -> *mut c_void;
    fn mprotect(address: *mut c_void, length: usize, protection: i32) -> i32;
    fn munmap(address: *mut c_void, length: usize) -> i32;
}

/// Whole pages, with one before them and one behind them that may not be touched. They are zeros at first.
pub struct Guarded {
    start: *mut u8,
    length: usize,
}

impl Guarded {
    /// Room for at least so many bytes.
    pub fn new(room: usize) -> Guarded {
        let length = room.max(1).next_multiple_of(PAGE);
        let start = unsafe {
            let mapped = mmap(std::ptr::null_mut(), length + 2 * PAGE, NOT_AT_ALL, PRIVATE_AND_NO_FILE, -1, 0);
            assert!(mapped as isize != -1, "no memory");
            mapped.cast::<u8>().add(PAGE)
        };
        let guarded = Guarded { start, length };
        guarded.allow_writing(true);
        guarded
    }

    pub fn room(&self) -> usize {
        self.length
    }

    /// The address that so many bytes have before the page that may not be touched.
    pub fn last(&self, count: usize) -> *mut u8 {
        assert!(count <= self.length);
        unsafe { self.start.add(self.length - count) }
    }

    /// Whether the pages may be written, or read alone.
    pub fn allow_writing(&self, is_allowed: bool) {
        let protection = if is_allowed { READ_AND_WRITE } else { READ };
        assert!(unsafe { mprotect(self.start.cast(), self.length, protection) } == 0, "the pages cannot be guarded");
    }
}

impl Drop for Guarded {
    fn drop(&mut self) {
        unsafe { munmap(self.start.sub(PAGE).cast(), self.length + 2 * PAGE) };
    }
}
