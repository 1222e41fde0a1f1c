//! Safe Rust over the proved functions of `libkelompuris_c.a`. The rules of
//! each stand in `include/kelompuris.h`.
//!
//! There are two layers. [`Scene::read`], [`check`], [`clear_to_vec`], [`compare_to_vec`] and the like own what they give, and refuse
//! with a [`Refusal`], which is an error:
//!
//! ```
//! use kelompuris::{Mode, Scene};
//!
//! fn first_node(file: &[u8]) -> Result<String, Box<dyn std::error::Error>> {
//!     let scene = Scene::read(Mode::Strict, file)?;
//!     let root = scene.nodes().next().ok_or("a scene without nodes")?;
//!     Ok(String::from_utf8_lossy(root.name()).into_owned())
//! }
//!
//! let hall = std::fs::read("../../samples/hall.b3d").unwrap();
//! assert_eq!(first_node(&hall).unwrap(), "Hall");
//! let why = first_node(&hall[..60]).unwrap_err().to_string();
//! assert_eq!(why, "2 at 4: a BB3D length that is not the file size minus 8");
//! ```
//!
//! [`judge`], [`read()`], [`write()`], [`clear`], [`compare`] and the like are the functions of the header: they are lent tables and outputs, allocate nothing,
//! and answer with a number, which `result` turns into a [`Refusal`] where it is one.

pub mod cal3d;
pub mod columns;
mod entries;
mod groups;
pub mod pieces;
mod planner;
mod refusal;
pub mod row_by_row;
mod rows;
mod scene;

pub use entries::{
    compare_to_vec, mend_to_vec, Cells, Comparison, Difference, Differences, Mend, MendKind,
    Mending, Mends,
};
pub use planner::{compare, mend, Compared, Mended};
pub use refusal::{Refusal, Subject, TOO_SHORT};
pub use row_by_row::{rows, RowByRow};
pub use rows::{Row, Rows};
pub use scene::{
    check, clear_to_vec, label_of, slip_to_vec, Anim, Brush, Key, KeyList, Mesh, Node, NodeKind,
    RootLabel, Scene, Tables, Texture, Triangle, TriangleSet, Vertex, Weight,
};

/// Whether a red, green, blue or alpha outside 0 to 1 is refused.
#[repr(u32)]
#[derive(Clone, Copy, Debug, PartialEq, Eq)]
pub enum Mode {
    Strict = 0,
    Lenient = 1,
}

/// What a file is answered. All but number and place are 0 on refusal.
#[repr(C)]
#[derive(Clone, Copy, Debug, Default, PartialEq, Eq)]
pub struct Answer {
    pub number: u32,
    pub place: u32,
    pub version: u32,
    pub n_texs: u32,
    pub counts: [u32; 10],
}

/// What a slip is answered. The numbers are 0 on refusal.
#[repr(C)]
#[derive(Clone, Copy, Debug, Default, PartialEq, Eq)]
pub struct Slip {
    pub number: u32,
    pub place: u32,
    pub numbers: [u32; 12],
}

/// What the functions that write answer. The size is 0 on refusal.
#[repr(C)]
#[derive(Clone, Copy, Debug, Default, PartialEq, Eq)]
pub struct Written {
    pub number: u32,
    pub place: u32,
    pub size: u32,
}

/// The tray label of a file. All but the number are 0 on refusal, which is 14.
#[repr(C)]
#[derive(Clone, Copy, Debug, Default, PartialEq, Eq)]
pub struct Label {
    pub number: u32,
    pub place: u32,
    pub name_place: usize,
    pub name_length: usize,
    pub vertices: usize,
}

#[rustfmt::skip]
extern "C" {
    fn kelompuris_b3d_judge(mode: u32, file: *const u8, file_len: usize) -> Answer;

    fn kelompuris_b3d_read(
        mode: u32, file: *const u8, file_len: usize,
        t1: *mut u32, t1_len: usize, t2: *mut u32, t2_len: usize,
        t3: *mut u32, t3_len: usize, t4: *mut u32, t4_len: usize,
        t5: *mut u32, t5_len: usize, t6: *mut u32, t6_len: usize,
        t7: *mut u32, t7_len: usize, t8: *mut u32, t8_len: usize,
        t9: *mut u32, t9_len: usize, t10: *mut u32, t10_len: usize,
    ) -> Answer;

    fn kelompuris_b3d_write(
        mode: u32,
        t1: *const u32, t1_len: usize, t2: *const u32, t2_len: usize,
        t3: *const u32, t3_len: usize, t4: *const u32, t4_len: usize,
        t5: *const u32, t5_len: usize, t6: *const u32, t6_len: usize,
        t7: *const u32, t7_len: usize, t8: *const u32, t8_len: usize,
        t9: *const u32, t9_len: usize, t10: *const u32, t10_len: usize,
        counts: *const u32, version: u32, n_texs: u32,
        names: *const u8, names_len: usize, out: *mut u8, out_len: usize,
    ) -> Written;

    fn kelompuris_b3d_clear(
        file: *const u8, file_len: usize, out: *mut u8, out_len: usize,
    ) -> Written;

    fn kelompuris_b3d_slip(
        file: *const u8, file_len: usize, out: *mut u8, out_len: usize,
    ) -> Written;

    fn kelompuris_slip_write(numbers: *const u32, out: *mut u8, out_len: usize) -> Written;

    fn kelompuris_slip_read(slip: *const u8, slip_len: usize) -> Slip;

    fn kelompuris_b3d_label(file: *const u8, file_len: usize) -> Label;
}

/// Judges a file without tables: refusals 1 to 10.
#[must_use = "an answer may be a refusal"]
pub fn judge(mode: Mode, file: &[u8]) -> Answer {
    // SAFETY: the pointer holds for the length, and nothing is written.
    unsafe { kelompuris_b3d_judge(mode as u32, file.as_ptr(), file.len()) }
}

/// Reads a file into lent tables: refusals 1 to 11. A refused call changes no
/// word, and words past the last row stay as they were.
#[must_use = "an answer may be a refusal"]
#[rustfmt::skip]
pub fn read(mode: Mode, file: &[u8], tables: &mut [&mut [u32]; 10]) -> Answer {
    let [t1, t2, t3, t4, t5, t6, t7, t8, t9, t10] = tables;
    // SAFETY: each pointer holds for its length, and the borrows are apart.
    unsafe {
        kelompuris_b3d_read(
            mode as u32, file.as_ptr(), file.len(),
            t1.as_mut_ptr(), t1.len(), t2.as_mut_ptr(), t2.len(),
            t3.as_mut_ptr(), t3.len(), t4.as_mut_ptr(), t4.len(),
            t5.as_mut_ptr(), t5.len(), t6.as_mut_ptr(), t6.len(),
            t7.as_mut_ptr(), t7.len(), t8.as_mut_ptr(), t8.len(),
            t9.as_mut_ptr(), t9.len(), t10.as_mut_ptr(), t10.len(),
        )
    }
}

/// Writes tables as the shortest file: refusals 12, then 11. A refused call
/// changes no byte, and bytes past the size stay as they were.
#[must_use = "an answer may be a refusal"]
#[rustfmt::skip]
pub fn write(
    mode: Mode,
    tables: &[&[u32]; 10],
    counts: &[u32; 10],
    version: u32,
    n_texs: u32,
    names: &[u8],
    out: &mut [u8],
) -> Written {
    let [t1, t2, t3, t4, t5, t6, t7, t8, t9, t10] = tables;
    // SAFETY: each pointer holds for its length, ten for the counts; only the
    // output is written, and its borrow is apart from the others.
    unsafe {
        kelompuris_b3d_write(
            mode as u32,
            t1.as_ptr(), t1.len(), t2.as_ptr(), t2.len(),
            t3.as_ptr(), t3.len(), t4.as_ptr(), t4.len(),
            t5.as_ptr(), t5.len(), t6.as_ptr(), t6.len(),
            t7.as_ptr(), t7.len(), t8.as_ptr(), t8.len(),
            t9.as_ptr(), t9.len(), t10.as_ptr(), t10.len(),
            counts.as_ptr(), version, n_texs,
            names.as_ptr(), names.len(), out.as_mut_ptr(), out.len(),
        )
    }
}

/// Copies a file without names: refusals 1 to 10 of the lenient mode, then 11. A refused call
/// changes no byte, and bytes past the size stay as they were.
#[must_use = "an answer may be a refusal"]
pub fn clear(file: &[u8], out: &mut [u8]) -> Written {
    // SAFETY: each pointer holds for its length, and the borrows are apart.
    unsafe { kelompuris_b3d_clear(file.as_ptr(), file.len(), out.as_mut_ptr(), out.len()) }
}

/// Writes the slip of a file: refusals 1 to 10, then 11. A refused call changes
/// no byte, and bytes past the size stay as they were.
#[must_use = "an answer may be a refusal"]
pub fn slip_of(file: &[u8], out: &mut [u8]) -> Written {
    // SAFETY: each pointer holds for its length, and the borrows are apart.
    unsafe { kelompuris_b3d_slip(file.as_ptr(), file.len(), out.as_mut_ptr(), out.len()) }
}

/// Writes the slip of twelve numbers: refusals 13, then 11. A refused call
/// changes no byte, and bytes past the size stay as they were.
#[must_use = "an answer may be a refusal"]
pub fn write_slip(numbers: &[u32; 12], out: &mut [u8]) -> Written {
    // SAFETY: the pointers hold for twelve words and for the output's length,
    // and the borrows are apart.
    unsafe { kelompuris_slip_write(numbers.as_ptr(), out.as_mut_ptr(), out.len()) }
}

/// Reads a slip: refusal 13.
#[must_use = "an answer may be a refusal"]
pub fn read_slip(slip: &[u8]) -> Slip {
    // SAFETY: the pointer holds for the length, and nothing is written.
    unsafe { kelompuris_slip_read(slip.as_ptr(), slip.len()) }
}

/// The name of a file's root and the vertices of its mesh, by a walk over
/// headers that does not judge the file.
#[must_use = "an answer may be a refusal"]
pub fn label(file: &[u8]) -> Label {
    // SAFETY: the pointer holds for the length, and nothing is written.
    unsafe { kelompuris_b3d_label(file.as_ptr(), file.len()) }
}

/// The name on a file's label, a part of the file; empty where it is refused.
#[must_use]
pub fn label_name(file: &[u8]) -> &[u8] {
    let label = label(file);
    &file[label.name_place..][..label.name_length]
}

/// Tables as slices to lend; there are as many as the function takes.
pub fn slices<const TABLES: usize>(tables: &mut [Vec<u32>]) -> [&mut [u32]; TABLES] {
    let slices: Vec<&mut [u32]> = tables.iter_mut().map(Vec::as_mut_slice).collect();
    slices.try_into().expect("a slice for each table")
}
