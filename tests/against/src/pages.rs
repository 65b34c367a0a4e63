//! Buffers that lie against pages that can be neither read nor written.

use std::ffi::{c_int, c_void};

use crate::guard::Fill;

unsafe extern "C" {
    fn mmap(at: *mut c_void, length: usize, protection: c_int, flags: c_int, file: c_int, offset: i64) -> *mut c_void;
    fn mprotect(at: *mut c_void, length: usize, protection: c_int) -> c_int;
}

const NONE: c_int = 0;
const READ: c_int = 1;
const READ_WRITE: c_int = 3;
const PRIVATE_ANONYMOUS: c_int = 0x22;

const PAGE: usize = 4096;

/// The most bytes a buffer may have.
pub const AREA: usize = 64 * PAGE;

/// An area between two such pages, in which one buffer lies flush with one of them.
pub struct Pages {
    area: *mut u8,
    start: usize,
    length: usize,
}

impl Default for Pages {
    fn default() -> Pages {
        unsafe {
            let all = mmap(std::ptr::null_mut(), AREA + 2 * PAGE, NONE, PRIVATE_ANONYMOUS, -1, 0);
            assert!(all as isize != -1, "no memory");
            let area = all.cast::<u8>().add(PAGE);
            assert_eq!(mprotect(area.cast(), AREA, READ_WRITE), 0, "no memory");
            Pages { area, start: 0, length: 0 }
        }
    }
}

impl Pages {
    fn protect(&mut self, protection: c_int) {
        assert_eq!(unsafe { mprotect(self.area.cast(), AREA, protection) }, 0, "pages cannot be protected");
    }

    /// Lays the bytes flush with the page behind them, or with the one in front.
    fn lay(&mut self, bytes: &[u8], behind: bool) {
        assert!(bytes.len() <= AREA, "a buffer of {} bytes", bytes.len());
        self.length = bytes.len();
        self.start = if behind { AREA - bytes.len() } else { 0 };
        self.lent_mut().copy_from_slice(bytes);
    }

    /// The row, to be read alone: a write to it ends the process.
    pub fn read_only<T: Fill>(&mut self, row: &[T], behind: bool) -> &[T] {
        self.protect(READ_WRITE);
        // Numbers of any width are bytes, and both ends of the area suit them all.
        self.lay(unsafe { std::slice::from_raw_parts(row.as_ptr().cast(), size_of_val(row)) }, behind);
        self.protect(READ);
        unsafe { std::slice::from_raw_parts(self.lent().as_ptr().cast(), row.len()) }
    }

    pub fn to_write(&mut self, bytes: &[u8], behind: bool) -> &mut [u8] {
        self.lay(bytes, behind);
        self.lent_mut()
    }

    pub fn lent(&self) -> &[u8] {
        unsafe { std::slice::from_raw_parts(self.area.add(self.start), self.length) }
    }

    fn lent_mut(&mut self) -> &mut [u8] {
        unsafe { std::slice::from_raw_parts_mut(self.area.add(self.start), self.length) }
    }
}
