//! Memory between two pages that nobody may touch: whoever reads or writes past a slice that ends
//! there is stopped by the machine.

use std::ffi::c_void;

extern "C" {
    fn mmap(at: *mut c_void, length: usize, protection: i32, flags: i32, file: i32, offset: i64) -> *mut c_void;
    fn mprotect(at: *mut c_void, length: usize, protection: i32) -> i32;
}

const PAGE: usize = 4096;
const NO_ACCESS: i32 = 0;
const READ: i32 = 1;
const READ_AND_WRITE: i32 = 3;
const PRIVATE: i32 = 0x2;
const ANONYMOUS: i32 = 0x20;
const UNRESERVED: i32 = 0x4000;

/// Lives as long as the program.
pub struct Fenced {
    start: *mut u8,
    length: usize,
}

impl Fenced {
    pub fn new(pages: usize) -> Self {
        let length = pages * PAGE;
        let whole = map(length + 2 * PAGE, NO_ACCESS, 0).expect("address space");
        // SAFETY: the pages between the first and the last of a mapping that is nobody else's.
        let start = unsafe {
            let start = whole.add(PAGE);
            assert_eq!(mprotect(start.cast(), length, READ_AND_WRITE), 0, "memory between fences");
            start
        };
        Self { start, length }
    }

    pub fn bytes(&mut self) -> &mut [u8] {
        // SAFETY: mapped for reading and writing as long as the program lives, and borrowed with self.
        unsafe { std::slice::from_raw_parts_mut(self.start, self.length) }
    }

    pub fn words(&mut self) -> &mut [u16] {
        // SAFETY: as above; a page's start is aligned, and any bytes make words.
        unsafe { std::slice::from_raw_parts_mut(self.start.cast(), self.length / 2) }
    }

    pub fn numbers(&mut self) -> &mut [u64] {
        // SAFETY: as above.
        unsafe { std::slice::from_raw_parts_mut(self.start.cast(), self.length / 8) }
    }

    /// A copy of the bytes that stands at one of the fences, or none if there is no room.
    pub fn copy(&mut self, bytes: &[u8], at_end: bool) -> Option<&[u8]> {
        let start = if at_end { self.length.checked_sub(bytes.len())? } else { 0 };
        let place = self.bytes().get_mut(start..start + bytes.len())?;
        place.copy_from_slice(bytes);
        Some(place)
    }
}

/// So many zero bytes that take no memory until they are read, or none if there is no such room.
pub fn zero_bytes(length: usize) -> Option<&'static [u8]> {
    let start = map(length, READ, UNRESERVED)?;
    // SAFETY: mapped for reading as long as the program lives.
    Some(unsafe { std::slice::from_raw_parts(start, length) })
}

fn map(length: usize, protection: i32, flags: i32) -> Option<*mut u8> {
    // SAFETY: a new mapping, at a place that is free.
    let start = unsafe { mmap(std::ptr::null_mut(), length, protection, PRIVATE | ANONYMOUS | flags, -1, 0) };
    (start as isize != -1).then_some(start.cast())
}
