//! Memory that ends, or begins, where a page that can't be touched is: what reaches past a slice is caught.

use std::ffi::{c_int, c_void};

extern "C" {
    fn mmap(at: *mut c_void, length: usize, protection: c_int, flags: c_int, file: c_int, offset: i64) -> *mut c_void;
    fn mprotect(at: *mut c_void, length: usize, protection: c_int) -> c_int;
}

const PAGE: usize = 4096;
const NONE: c_int = 0;
const READ_WRITE: c_int = 3;
const PRIVATE_ANONYMOUS: c_int = 0x22;

/// Pages between two that can't be touched. They are kept until the program ends.
pub struct Guarded {
    start: *mut u8,
    size: usize,
}

impl Guarded {
    pub fn new(size: usize) -> Self {
        let size = size.div_ceil(PAGE) * PAGE;
        let whole = size + 2 * PAGE;
        let start = unsafe { mmap(std::ptr::null_mut(), whole, NONE, PRIVATE_ANONYMOUS, -1, 0) };
        assert!(start as isize != -1, "no memory");
        let start = unsafe { (start as *mut u8).add(PAGE) };
        assert_eq!(unsafe { mprotect(start.cast(), size, READ_WRITE) }, 0);
        Self { start, size }
    }

    /// A slice of `count` numbers at the end of the pages, or at their beginning.
    pub fn slice<T: Copy>(&mut self, count: usize, at_end: bool) -> &mut [T] {
        let bytes = count * std::mem::size_of::<T>();
        assert!(bytes <= self.size);
        let offset = if at_end { self.size - bytes } else { 0 };
        unsafe { std::slice::from_raw_parts_mut(self.start.add(offset).cast(), count) }
    }
}
