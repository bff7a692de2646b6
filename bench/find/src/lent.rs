//! Memory to lend, of zeros, of which only what is touched is ever had.
//!
//! The call asks for far more words than it uses, for some descriptions more than a machine
//! has. So they are mapped without a reserve, which the standard library's allocator does not
//! do; the C library, which every program here is linked with, does.

use std::ffi::{c_int, c_void};
use std::ptr::{NonNull, null_mut};

unsafe extern "C" {
    fn mmap(
        address: *mut c_void,
        length: usize,
        protection: c_int,
        flags: c_int,
        file: c_int,
        offset: i64,
    ) -> *mut c_void;
    fn munmap(address: *mut c_void, length: usize) -> c_int;
}

// As Linux has them.
const READ_AND_WRITE: c_int = 0x1 | 0x2;
const PRIVATE_ANONYMOUS_UNRESERVED: c_int = 0x2 | 0x20 | 0x4000;
const FAILED: usize = usize::MAX;

pub struct Lent {
    start: NonNull<u32>,
    count: usize,
}

impl Lent {
    /// So many words, all zero.
    pub fn new(count: usize) -> Result<Lent, String> {
        // SAFETY: a new mapping at no given address touches no memory that is in use.
        let address = unsafe {
            mmap(null_mut(), 4 * count, READ_AND_WRITE, PRIVATE_ANONYMOUS_UNRESERVED, -1, 0)
        };
        if address as usize == FAILED {
            return Err(format!("{count} words cannot be lent"));
        }
        let start = NonNull::new(address.cast()).ok_or("the memory lent starts at 0")?;
        Ok(Lent { start, count })
    }

    pub fn words(&mut self) -> &mut [u32] {
        // SAFETY: the mapping has so many words, which are zero or were written, and nothing
        // else refers to them while self is borrowed.
        unsafe { std::slice::from_raw_parts_mut(self.start.as_ptr(), self.count) }
    }
}

impl Drop for Lent {
    fn drop(&mut self) {
        // SAFETY: it is the mapping that `new` made, and no slice of it is left. Should it
        // fail, the memory stays until the program ends.
        unsafe { munmap(self.start.as_ptr().cast(), 4 * self.count) };
    }
}
