//! Buffers as a C host lends them. A region ends with a page that may not be touched, so that reading or writing past the last byte of
//! the buffer at its end stops the program; in front of a region's first buffer stand guard bytes.
use std::ffi::c_void;
use std::ptr;
use std::slice;

const PAGE: usize = 4096;
const GUARD: usize = 64;
const GUARD_BYTE: u8 = 0xa5;

extern "C" {
    fn mmap(at: *mut c_void, length: usize, protection: i32, flags: i32, file: i32, offset: i64) -> *mut c_void;
    fn mprotect(at: *mut c_void, length: usize, protection: i32) -> i32;
    fn munmap(at: *mut c_void, length: usize) -> i32;
}
const NO_ACCESS: i32 = 0;
const READ_WRITE: i32 = 3;
const PRIVATE_ANONYMOUS: i32 = 0x22;

/// Whole pages of our own, with a closed page behind them.
pub struct Region {
    base: *mut u8,
    usable: usize,
}

impl Region {
    /// A region for so many bytes and the guard in front of them.
    pub fn new(most: usize) -> Region {
        let usable = (most + GUARD).div_ceil(PAGE) * PAGE;
        let base = unsafe { mmap(ptr::null_mut(), usable + PAGE, READ_WRITE, PRIVATE_ANONYMOUS, -1, 0) };
        assert!(base as isize != -1, "no memory to lend");
        let base = base as *mut u8;
        let closed = unsafe { mprotect(base.add(usable) as *mut c_void, PAGE, NO_ACCESS) };
        assert!(closed == 0, "the closed page");
        Region { base, usable }
    }

    /// The last bytes of the region.
    pub fn last(&self, length: usize) -> Lent {
        self.before(unsafe { self.base.add(self.usable) }, length)
    }

    /// The bytes in front of an address of the region.
    pub fn before(&self, end: *mut u8, length: usize) -> Lent {
        let room = end as usize - self.base as usize;
        assert!(length + GUARD <= room, "a region too small for its buffers");
        Lent { pointer: unsafe { end.sub(length) }, length }
    }
}

impl Drop for Region {
    fn drop(&mut self) {
        unsafe { munmap(self.base as *mut c_void, self.usable + PAGE) };
    }
}

/// A buffer inside a region, which outlives it.
#[derive(Clone, Copy)]
pub struct Lent {
    pub pointer: *mut u8,
    pub length: usize,
}

impl Lent {
    pub fn bytes(&self) -> &[u8] {
        unsafe { slice::from_raw_parts(self.pointer, self.length) }
    }

    pub fn bytes_mut(&mut self) -> &mut [u8] {
        unsafe { slice::from_raw_parts_mut(self.pointer, self.length) }
    }

    /// Writes the guard bytes in front of the buffer.
    pub fn guard(&self) {
        unsafe { ptr::write_bytes(self.pointer.sub(GUARD), GUARD_BYTE, GUARD) };
    }

    /// Whether they are as they were.
    pub fn guarded(&self) -> bool {
        let front = unsafe { slice::from_raw_parts(self.pointer.sub(GUARD), GUARD) };
        front.iter().all(|&byte| byte == GUARD_BYTE)
    }
}
