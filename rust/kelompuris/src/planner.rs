//! What a planner asks of scenes: what changed between two, and can this one be
//! mended. The rules stand in `include/kelompuris.h`.

/// What a comparison is answered: a refusal of the first or the second file says
/// which, 1 or 2. The size is 0 on refusal.
#[repr(C)]
#[derive(Clone, Copy, Debug, Default, PartialEq, Eq)]
pub struct Compared {
    pub number: u32,
    pub place: u32,
    pub which: u32,
    pub size: u32,
}

/// What mending is answered. The sizes, of the mended file and of the report, are 0
/// on refusal.
#[repr(C)]
#[derive(Clone, Copy, Debug, Default, PartialEq, Eq)]
pub struct Mended {
    pub number: u32,
    pub place: u32,
    pub size: u32,
    pub report_size: u32,
}

#[rustfmt::skip]
extern "C" {
    fn kelompuris_b3d_compare(
        first: *const u8, first_len: usize, second: *const u8, second_len: usize,
        out: *mut u8, out_len: usize,
    ) -> Compared;

    fn kelompuris_b3d_mend(
        file: *const u8, file_len: usize, out: *mut u8, out_len: usize,
        report: *mut u8, report_len: usize,
    ) -> Mended;
}

/// Lists what differs between two files: the first one's refusals 1 to 10 of the
/// lenient mode, then the second's, then 11. A refused call changes no byte, and
/// bytes past the size stay as they were.
#[must_use = "an answer may be a refusal"]
#[rustfmt::skip]
pub fn compare(first: &[u8], second: &[u8], out: &mut [u8]) -> Compared {
    // SAFETY: each pointer holds for its length; only the output is written, and its
    // borrow is apart from the others.
    unsafe {
        kelompuris_b3d_compare(
            first.as_ptr(), first.len(), second.as_ptr(), second.len(),
            out.as_mut_ptr(), out.len(),
        )
    }
}

/// Mends a file and reports what it mended: its first fault of another kind than the
/// four, then 11 for the mended file, then 11 for the report. A refused call changes
/// no byte, and bytes past the sizes stay as they were.
#[must_use = "an answer may be a refusal"]
#[rustfmt::skip]
pub fn mend(file: &[u8], out: &mut [u8], report: &mut [u8]) -> Mended {
    // SAFETY: each pointer holds for its length, and the borrows are apart.
    unsafe {
        kelompuris_b3d_mend(
            file.as_ptr(), file.len(), out.as_mut_ptr(), out.len(),
            report.as_mut_ptr(), report.len(),
        )
    }
}
