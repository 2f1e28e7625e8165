//! Memory between two unreadable pages: whoever touches a byte outside of what is lent dies.

use std::ffi::{c_int, c_long, c_void};

unsafe extern "C" {
    fn mmap(at: *mut c_void, len: usize, access: c_int, flags: c_int, file: c_int, from: c_long) -> *mut c_void;
    fn mprotect(at: *mut c_void, len: usize, access: c_int) -> c_int;
    fn munmap(at: *mut c_void, len: usize) -> c_int;
    fn sysconf(name: c_int) -> c_long;
}

/// Linux's numbers, the same on x86-64 and on Arm.
const NO_ACCESS: c_int = 0;
const READ_WRITE: c_int = 3;
const PRIVATE_ANONYMOUS: c_int = 0x22;
const PAGE_SIZE: c_int = 30;

/// At which end of the pages a buffer lies, flush.
#[derive(Clone, Copy, Debug, PartialEq)]
pub enum Side {
    Start,
    End,
}

/// Pages that can be read and written, with an unreadable one before and one behind.
pub struct Pages {
    all: *mut u8,
    page: usize,
    len: usize,
}

/// The bytes of a page on this machine.
pub fn page_size() -> usize {
    // SAFETY: it only answers a number.
    unsafe { sysconf(PAGE_SIZE) as usize }
}

impl Pages {
    /// Room for at least `len` bytes.
    pub fn new(len: usize) -> Self {
        let page = page_size();
        let len = len.max(1).next_multiple_of(page);
        // SAFETY: new pages at a place of the system's choice.
        let all = unsafe { mmap(std::ptr::null_mut(), len + 2 * page, NO_ACCESS, PRIVATE_ANONYMOUS, -1, 0) };
        assert_ne!(all as isize, -1, "no memory");
        let pages = Pages { all: all.cast(), page, len };
        // SAFETY: the pages between the first and the last of those just made.
        assert_eq!(unsafe { mprotect(pages.first().cast(), len, READ_WRITE) }, 0);
        pages
    }

    /// The first byte behind the page before.
    pub fn first(&self) -> *mut u8 {
        self.all.wrapping_add(self.page)
    }

    /// How many bytes lie between the two pages.
    pub fn room(&self) -> usize {
        self.len
    }

    /// Where `len` bytes lie flush against one of the unreadable pages; more room is made where it lacks.
    pub fn lend(&mut self, len: usize, side: Side) -> *mut u8 {
        if len > self.len {
            *self = Pages::new(len);
        }
        match side {
            Side::Start => self.first(),
            Side::End => self.first().wrapping_add(self.len - len),
        }
    }
}

impl Drop for Pages {
    fn drop(&mut self) {
        // SAFETY: the pages are this value's own, and nobody is lent them any longer.
        unsafe { munmap(self.all.cast(), self.len + 2 * self.page) };
    }
}
