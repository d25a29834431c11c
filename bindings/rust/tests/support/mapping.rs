//! Lists that are too long to be made: zeros at addresses that no memory stands behind.

use std::ffi::{c_int, c_void};

const PROT_READ: c_int = 1;
const MAP_PRIVATE: c_int = 2;
const MAP_ANONYMOUS: c_int = 0x20;
const MAP_NORESERVE: c_int = 0x4000;
const PAGE_BYTES: usize = 4096;

extern "C" {
    fn mmap(address: *mut c_void, length: usize, protection: c_int, flags: c_int, file: c_int, offset: i64) -> *mut c_void;
    fn munmap(address: *mut c_void, length: usize) -> c_int;
    fn mincore(address: *mut c_void, length: usize, pages: *mut u8) -> c_int;
}

pub struct Mapping {
    start: *mut c_void,
    bytes: usize,
}

impl Mapping {
    pub fn of_bytes(bytes: usize) -> Mapping {
        let flags = MAP_PRIVATE | MAP_ANONYMOUS | MAP_NORESERVE;
        // SAFETY: a new mapping.
        let start = unsafe { mmap(std::ptr::null_mut(), bytes, PROT_READ, flags, -1, 0) };
        assert_ne!(start as isize, -1, "the addresses were not granted");
        Mapping { start, bytes }
    }

    pub fn bytes(&self) -> &[u8] {
        // SAFETY: the mapping has so many bytes, all 0, that nothing writes, and is there as long as it is borrowed.
        unsafe { std::slice::from_raw_parts(self.start.cast(), self.bytes) }
    }

    pub fn numbers(&self) -> &[u64] {
        // SAFETY: the same; it begins with a page.
        unsafe { std::slice::from_raw_parts(self.start.cast(), self.bytes / 8) }
    }

    /// How many of its pages are in memory. A page that is read comes in.
    pub fn pages_in(&self) -> usize {
        let mut pages = vec![0; self.bytes.div_ceil(PAGE_BYTES)];
        // SAFETY: the whole mapping, and a byte for each of its pages.
        assert_eq!(unsafe { mincore(self.start, self.bytes, pages.as_mut_ptr()) }, 0);
        pages.iter().filter(|&page| page & 1 == 1).count()
    }
}

impl Drop for Mapping {
    fn drop(&mut self) {
        // SAFETY: the whole mapping, which nothing borrows any more.
        assert_eq!(unsafe { munmap(self.start, self.bytes) }, 0);
    }
}
