//! Skeletons and meshes of cal3d, owned, with rows of named fields.

use super::{judge_mesh, judge_skeleton, read_mesh, read_skeleton};
use crate::columns::{cal3d, Table};
use crate::refusal::Refusal;
use crate::rows::{floats, id, name, range, row, Rows};
use std::fmt;
use std::ops::Range;

/// Tables of `counts` rows, to lend.
fn lendable<const TABLES: usize>(
    tables: &[Table; TABLES],
    counts: [u32; TABLES],
) -> [Vec<u32>; TABLES] {
    std::array::from_fn(|table| vec![0; tables[table].words() * counts[table] as usize])
}

/// A skeleton: the tables of an accepted file, and that file, which holds the names.
///
/// ```
/// use kelompuris::cal3d::Skeleton;
///
/// # fn main() -> Result<(), Box<dyn std::error::Error>> {
/// let file = std::fs::read("../../samples/door.csf")?;
/// let skeleton = Skeleton::read(&file)?;
/// let hinge = skeleton.bones().get(1).expect("a second bone");
/// assert_eq!((hinge.name(), hinge.parent()), (&b"hinge"[..], Some(0)));
/// let children = skeleton.children(&hinge);
/// assert_eq!(children, [2]);
/// # Ok(())
/// # }
/// ```
#[derive(Clone)]
pub struct Skeleton<'a> {
    head: [u32; 5],
    words: [Vec<u32>; 2],
    file: &'a [u8],
}

impl<'a> Skeleton<'a> {
    /// Reads a file: refusals 1 to 10 and 16.
    pub fn read(file: &'a [u8]) -> Result<Skeleton<'a>, Refusal> {
        let held = judge_skeleton(file).result()?;
        let mut words = lendable(&cal3d::SKELETON, held.counts);
        read_skeleton(file, &mut words.each_mut().map(Vec::as_mut_slice)).result()?;
        let head = held.head;
        Ok(Skeleton { head, words, file })
    }

    /// Version, number of bones, and the bits of ambient red, green and blue.
    pub fn head(&self) -> &[u32; 5] {
        &self.head
    }

    /// The words of the tables bones and children.
    pub fn words(&self) -> &[Vec<u32>; 2] {
        &self.words
    }

    pub fn bones(&self) -> Rows<'_, Bone<'_>> {
        Rows::over(&self.words[0], self.file)
    }

    /// The numbers of a bone's children.
    pub fn children(&self, bone: &Bone) -> &[u32] {
        self.words[1].get(bone.children()).unwrap_or_default()
    }
}

/// Tells the header's numbers and the tables' words, and no name.
impl fmt::Debug for Skeleton<'_> {
    fn fmt(&self, formatter: &mut fmt::Formatter) -> fmt::Result {
        let mut skeleton = formatter.debug_struct("Skeleton");
        skeleton
            .field("head", &self.head)
            .field("words", &self.words)
            .finish()
    }
}

row!(
    /// A bone.
    Bone,
    23
);

impl<'a> Bone<'a> {
    /// Its name as the file has it: cal3d's own writer puts a zero behind each.
    pub fn name(&self) -> &'a [u8] {
        name(self.names, self.words[0], self.words[1])
    }

    pub fn translation(&self) -> [f32; 3] {
        floats(self.words, 2)
    }

    pub fn rotation(&self) -> [f32; 4] {
        floats(self.words, 5)
    }

    pub fn local_translation(&self) -> [f32; 3] {
        floats(self.words, 9)
    }

    pub fn local_rotation(&self) -> [f32; 4] {
        floats(self.words, 12)
    }

    pub fn parent(&self) -> Option<usize> {
        id(self.words[16])
    }

    pub fn lighting(&self) -> i32 {
        self.words[17] as i32
    }

    pub fn colour(&self) -> [f32; 3] {
        floats(self.words, 18)
    }

    /// Its children's rows in the table of children.
    pub fn children(&self) -> Range<usize> {
        range(self.words[22], self.words[21])
    }
}

/// A mesh file: the tables of an accepted file.
///
/// ```
/// use kelompuris::cal3d::Submeshes;
///
/// # fn main() -> Result<(), Box<dyn std::error::Error>> {
/// let file = std::fs::read("../../samples/curtain.cmf")?;
/// let mesh = Submeshes::read(&file, 6)?;
/// let first = mesh.submeshes().next().expect("a submesh");
/// assert_eq!((first.vertices(), first.springs()), (0..6, 0..5));
/// assert_eq!(Submeshes::read(&file, 4).unwrap_err().number(), 7);
/// # Ok(())
/// # }
/// ```
#[derive(Clone, Debug)]
pub struct Submeshes {
    head: [u32; 2],
    words: [Vec<u32>; 6],
}

impl Submeshes {
    /// Reads a file whose bone ids must be below `bones`: refusals 1 to 10.
    pub fn read(file: &[u8], bones: u32) -> Result<Submeshes, Refusal> {
        let held = judge_mesh(file, bones).result()?;
        let mut words = lendable(&cal3d::MESH, held.counts);
        read_mesh(file, bones, &mut words.each_mut().map(Vec::as_mut_slice)).result()?;
        let head = held.head;
        Ok(Submeshes { head, words })
    }

    /// Version and number of submeshes.
    pub fn head(&self) -> &[u32; 2] {
        &self.head
    }

    /// The words of the tables submeshes, vertices, maps, influences, springs and faces.
    pub fn words(&self) -> &[Vec<u32>; 6] {
        &self.words
    }
}

macro_rules! rows {
    ($($name:ident: $row:ident, $table:expr;)*) => {
        impl Submeshes {
            $(
                #[doc = concat!("The ", stringify!($name), ", in file order.")]
                pub fn $name(&self) -> Rows<'_, $row<'_>> {
                    Rows::over(&self.words[$table], &[])
                }
            )*
        }
    };
}

rows! {
    submeshes: Submesh, 0;
    vertices: MeshVertex, 1;
    maps: Map, 2;
    influences: Influence, 3;
    springs: Spring, 4;
    faces: Face, 5;
}

row!(
    /// A submesh.
    Submesh,
    9
);

impl Submesh<'_> {
    /// The material thread id, which may be any number.
    pub fn material(&self) -> i32 {
        self.words[0] as i32
    }

    pub fn lod_steps(&self) -> i32 {
        self.words[3] as i32
    }

    /// How many maps each of its vertices has.
    pub fn maps(&self) -> usize {
        self.words[5] as usize
    }

    pub fn vertices(&self) -> Range<usize> {
        range(self.words[6], self.words[1])
    }

    pub fn springs(&self) -> Range<usize> {
        range(self.words[7], self.words[4])
    }

    pub fn faces(&self) -> Range<usize> {
        range(self.words[8], self.words[2])
    }
}

row!(
    /// A vertex of a submesh.
    MeshVertex,
    12
);

impl MeshVertex<'_> {
    pub fn position(&self) -> [f32; 3] {
        floats(self.words, 0)
    }

    pub fn normal(&self) -> [f32; 3] {
        floats(self.words, 3)
    }

    /// The vertex that it falls together with, counted from its submesh's first one on.
    pub fn collapse(&self) -> Option<usize> {
        id(self.words[6])
    }

    pub fn face_collapses(&self) -> i32 {
        self.words[7] as i32
    }

    /// 0 where the submesh has no springs.
    pub fn cloth_weight(&self) -> f32 {
        f32::from_bits(self.words[9])
    }

    /// The first of its maps, of which it has as many as its submesh says.
    pub fn first_map(&self) -> usize {
        self.words[10] as usize
    }

    pub fn influences(&self) -> Range<usize> {
        range(self.words[11], self.words[8])
    }
}

row!(
    /// A place on a picture.
    Map,
    2
);

impl Map<'_> {
    /// u and v.
    pub fn coordinates(&self) -> [f32; 2] {
        floats(self.words, 0)
    }
}

row!(
    /// How far a bone moves a vertex.
    Influence,
    2
);

impl Influence<'_> {
    pub fn bone(&self) -> usize {
        self.words[0] as usize
    }

    pub fn weight(&self) -> f32 {
        f32::from_bits(self.words[1])
    }
}

row!(
    /// A spring between two vertices.
    Spring,
    4
);

impl Spring<'_> {
    /// Counted from their submesh's first one on.
    pub fn vertices(&self) -> [usize; 2] {
        [self.words[0] as usize, self.words[1] as usize]
    }

    pub fn coefficient(&self) -> f32 {
        f32::from_bits(self.words[2])
    }

    pub fn idle_length(&self) -> f32 {
        f32::from_bits(self.words[3])
    }
}

row!(
    /// A face of three vertices.
    Face,
    3
);

impl Face<'_> {
    /// Counted from their submesh's first one on.
    pub fn vertices(&self) -> [usize; 3] {
        std::array::from_fn(|corner| self.words[corner] as usize)
    }
}
