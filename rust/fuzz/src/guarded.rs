//! Bytes beside memory that must not be touched: reading or writing past their end, or
//! before their start, ends the program.

use std::ffi::c_void;
use std::slice::from_raw_parts_mut;

/// Bytes of a page.
const PAGE: usize = 4096;

extern "C" {
    fn mmap(
        at: *mut c_void,
        size: usize,
        access: i32,
        kind: i32,
        file: i32,
        from: i64,
    ) -> *mut c_void;
    fn mprotect(at: *mut c_void, size: usize, access: i32) -> i32;
}

/// Memory with a page before and a page behind it that must not be touched.
pub struct Guarded(&'static mut [u8]);

impl Guarded {
    /// For at most so many bytes. It is never given back.
    pub fn new(most: usize) -> Guarded {
        const ANY: i32 = 3;
        const OWN_ANONYMOUS: i32 = 0x22;
        let size = most.next_multiple_of(PAGE);
        // SAFETY: the pages are new and nothing else has them.
        unsafe {
            let all = mmap(
                std::ptr::null_mut(),
                size + 2 * PAGE,
                0,
                OWN_ANONYMOUS,
                -1,
                0,
            );
            assert_ne!(all as isize, -1, "no memory");
            let inside = all.byte_add(PAGE);
            assert_eq!(mprotect(inside, size, ANY), 0, "no access");
            Guarded(from_raw_parts_mut(inside.cast(), size))
        }
    }

    /// These bytes, there: at the end, or else at the start.
    pub fn hold(&mut self, bytes: &[u8], at_end: bool) -> &[u8] {
        let start = match at_end {
            true => self.0.len() - bytes.len(),
            false => 0,
        };
        let held = &mut self.0[start..][..bytes.len()];
        held.copy_from_slice(bytes);
        held
    }
}
