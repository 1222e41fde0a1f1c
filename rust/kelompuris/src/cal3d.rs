//! Skeletons and meshes of cal3d.

mod owned;

pub use owned::{Bone, Face, Influence, Map, MeshVertex, Skeleton, Spring, Submesh, Submeshes};

/// What a file is answered: the numbers of its header, and the rows of its
/// tables. All but number and place are 0 on refusal.
#[repr(C)]
#[derive(Clone, Copy, Debug, PartialEq, Eq)]
pub struct Answer<const HEAD: usize, const TABLES: usize> {
    pub number: u32,
    pub place: u32,
    pub head: [u32; HEAD],
    pub counts: [u32; TABLES],
}

/// The head is version, number of bones, ambient red, green and blue; the
/// tables are bones and children.
pub type SkeletonAnswer = Answer<5, 2>;

/// The head is version and number of submeshes; the tables are submeshes,
/// vertices, maps, influences, springs and faces.
pub type MeshAnswer = Answer<2, 6>;

#[rustfmt::skip]
extern "C" {
    fn kelompuris_csf_judge(file: *const u8, file_len: usize) -> SkeletonAnswer;

    fn kelompuris_csf_read(
        file: *const u8, file_len: usize,
        bones: *mut u32, bones_len: usize, children: *mut u32, children_len: usize,
    ) -> SkeletonAnswer;

    fn kelompuris_cmf_judge(file: *const u8, file_len: usize, bone_count: u32) -> MeshAnswer;

    fn kelompuris_cmf_read(
        file: *const u8, file_len: usize, bone_count: u32,
        submeshes: *mut u32, submeshes_len: usize, vertices: *mut u32, vertices_len: usize,
        maps: *mut u32, maps_len: usize, influences: *mut u32, influences_len: usize,
        springs: *mut u32, springs_len: usize, faces: *mut u32, faces_len: usize,
    ) -> MeshAnswer;
}

/// Judges a skeleton without tables: refusals 1 to 10 and 16.
#[must_use = "an answer may be a refusal"]
pub fn judge_skeleton(file: &[u8]) -> SkeletonAnswer {
    // SAFETY: the pointer holds for the length, and nothing is written.
    unsafe { kelompuris_csf_judge(file.as_ptr(), file.len()) }
}

/// Reads a skeleton into lent tables: refusals 1 to 10, 16, then 11. A refused
/// call changes no word, and words past the last row stay as they were.
#[must_use = "an answer may be a refusal"]
#[rustfmt::skip]
pub fn read_skeleton(file: &[u8], tables: &mut [&mut [u32]; 2]) -> SkeletonAnswer {
    let [bones, children] = tables;
    // SAFETY: each pointer holds for its length, and the borrows are apart.
    unsafe {
        kelompuris_csf_read(
            file.as_ptr(), file.len(),
            bones.as_mut_ptr(), bones.len(), children.as_mut_ptr(), children.len(),
        )
    }
}

/// Judges a mesh without tables, its bone ids being below a count: refusals 1
/// to 10.
#[must_use = "an answer may be a refusal"]
pub fn judge_mesh(file: &[u8], bone_count: u32) -> MeshAnswer {
    // SAFETY: the pointer holds for the length, and nothing is written.
    unsafe { kelompuris_cmf_judge(file.as_ptr(), file.len(), bone_count) }
}

/// Reads a mesh into lent tables: refusals 1 to 10, then 11. A refused call
/// changes no word, and words past the last row stay as they were.
#[must_use = "an answer may be a refusal"]
#[rustfmt::skip]
pub fn read_mesh(file: &[u8], bone_count: u32, tables: &mut [&mut [u32]; 6]) -> MeshAnswer {
    let [submeshes, vertices, maps, influences, springs, faces] = tables;
    // SAFETY: each pointer holds for its length, and the borrows are apart.
    unsafe {
        kelompuris_cmf_read(
            file.as_ptr(), file.len(), bone_count,
            submeshes.as_mut_ptr(), submeshes.len(), vertices.as_mut_ptr(), vertices.len(),
            maps.as_mut_ptr(), maps.len(), influences.as_mut_ptr(), influences.len(),
            springs.as_mut_ptr(), springs.len(), faces.as_mut_ptr(), faces.len(),
        )
    }
}
