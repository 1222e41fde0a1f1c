//! Scenes: what the reader gives and the writer takes, owned.

use crate::columns::TABLES;
use crate::refusal::{Refusal, TOO_SHORT};
use crate::rows::{floats, id, name, range, row, Rows};
use crate::{judge, Answer, Mode, Written};
use std::fmt;
use std::ops::Range;

/// Judges a file: what it holds, or why it is refused.
///
/// ```
/// use kelompuris::{check, Mode};
///
/// # fn main() -> Result<(), Box<dyn std::error::Error>> {
/// let file = std::fs::read("../../samples/kitchen.b3d")?;
/// let held = check(Mode::Strict, &file)?;
/// assert_eq!((held.version, held.n_texs, held.counts[2]), (1, 2, 6));
/// # Ok(())
/// # }
/// ```
pub fn check(mode: Mode, file: &[u8]) -> Result<Answer, Refusal> {
    judge(mode, file).result()
}

/// The copy of a file without names: refusals 1 to 10 of the lenient mode.
///
/// ```
/// # fn main() -> Result<(), Box<dyn std::error::Error>> {
/// let file = std::fs::read("../../samples/kitchen.b3d")?;
/// let copy = kelompuris::clear_to_vec(&file)?;
/// assert_eq!((file.len(), copy.len()), (1574, 1412));
/// assert_eq!(kelompuris::clear_to_vec(&copy)?, copy);
/// # Ok(())
/// # }
/// ```
pub fn clear_to_vec(file: &[u8]) -> Result<Vec<u8>, Refusal> {
    exact(|out| crate::clear(file, out))
}

/// The slip of a file: refusals 1 to 10 of the lenient mode.
///
/// ```
/// # fn main() -> Result<(), Box<dyn std::error::Error>> {
/// let file = std::fs::read("../../samples/hall.b3d")?;
/// let slip = kelompuris::slip_to_vec(&file)?;
/// assert_eq!(slip, [1, 0, 0, 0, 1, 0, 0, 0, 0, 0, 0, 0]);
/// assert_eq!(kelompuris::read_slip(&slip).result()?.numbers[4], 1);
/// # Ok(())
/// # }
/// ```
pub fn slip_to_vec(file: &[u8]) -> Result<Vec<u8>, Refusal> {
    exact(|out| crate::slip_of(file, out))
}

/// Lends no output, to learn the size, then just that much.
fn exact(write: impl Fn(&mut [u8]) -> Written) -> Result<Vec<u8>, Refusal> {
    let asked = write(&mut []);
    if asked.number != TOO_SHORT {
        asked.result()?;
        return Ok(Vec::new());
    }
    let mut out = vec![0; asked.place as usize];
    write(&mut out).result()?;
    Ok(out)
}

/// The root's name and the vertices of its mesh, 0 without one.
#[derive(Clone, Copy, Debug, PartialEq, Eq)]
pub struct RootLabel<'a> {
    /// A part of the file.
    pub name: &'a [u8],
    pub vertices: usize,
}

/// The label of a file, by a walk over headers that does not judge the file: refusal 14.
///
/// ```
/// # fn main() -> Result<(), Box<dyn std::error::Error>> {
/// let file = std::fs::read("../../samples/kitchen.b3d")?;
/// let label = kelompuris::label_of(&file)?;
/// assert_eq!((label.name, label.vertices), (&b"cupboard"[..], 8));
/// # Ok(())
/// # }
/// ```
pub fn label_of(file: &[u8]) -> Result<RootLabel<'_>, Refusal> {
    let label = crate::label(file).result()?;
    Ok(RootLabel {
        name: &file[label.name_place..][..label.name_length],
        vertices: label.vertices,
    })
}

/// Ten tables with version and n_texs. They need not be those of a scene: the writer says whether they are.
#[derive(Clone, Debug, Default, PartialEq, Eq)]
pub struct Tables {
    pub version: u32,
    pub n_texs: u32,
    /// The words of the rows of tables 1 to 10.
    pub words: [Vec<u32>; 10],
}

impl Tables {
    /// The shortest file with these tables, whose names are parts of `names`: refusal 12.
    pub fn write(&self, mode: Mode, names: &[u8]) -> Result<Vec<u8>, Refusal> {
        let words = self.words.each_ref().map(Vec::as_slice);
        let rows = |table: usize| self.words[table].len() / TABLES[table].words();
        // A count that is no word is far past every limit, and so is the highest word.
        let counts = std::array::from_fn(|table| u32::try_from(rows(table)).unwrap_or(u32::MAX));
        let (version, n_texs) = (self.version, self.n_texs);
        exact(|out| crate::write(mode, &words, &counts, version, n_texs, names, out))
    }
}

/// A scene: the tables of an accepted file, and that file, which holds the names.
///
/// ```
/// use kelompuris::{Mode, NodeKind, Scene};
///
/// # fn main() -> Result<(), Box<dyn std::error::Error>> {
/// let file = std::fs::read("../../samples/kitchen.b3d")?;
/// let scene = Scene::read(Mode::Strict, &file)?;
/// let names: Vec<&[u8]> = scene.nodes().map(|node| node.name()).collect();
/// assert_eq!(names[..3], [&b"cupboard"[..], b"hinge", b"handle"]);
///
/// let hinge = scene.nodes().get(1).expect("a second node");
/// assert_eq!((hinge.parent(), hinge.position()), (Some(0), [0.5, 0.0, 0.3]));
/// assert_eq!(hinge.kind(), NodeKind::Bone { weights: 0..4 });
///
/// // Written again it has the same tables.
/// let again = scene.write(Mode::Strict)?;
/// assert_eq!(Scene::read(Mode::Strict, &again)?.nodes().len(), 6);
/// # Ok(())
/// # }
/// ```
#[derive(Clone)]
pub struct Scene<'a> {
    tables: Tables,
    file: &'a [u8],
}

impl<'a> Scene<'a> {
    /// Reads a file in a mode: refusals 1 to 10.
    pub fn read(mode: Mode, file: &'a [u8]) -> Result<Scene<'a>, Refusal> {
        // A file has as many rows in either mode. The lenient one looks at no colour, so that colours
        // are judged once, by the reader; of a file that it refuses, the mode asked for tells why.
        let held = check(Mode::Lenient, file).or_else(|_| check(mode, file))?;
        let size = |table: usize| TABLES[table].words() * held.counts[table] as usize;
        let mut words = std::array::from_fn(|table| vec![0; size(table)]);
        let lent = &mut words.each_mut().map(Vec::as_mut_slice);
        let Answer {
            version, n_texs, ..
        } = crate::read(mode, file, lent).result()?;
        let tables = Tables {
            version,
            n_texs,
            words,
        };
        Ok(Scene { tables, file })
    }

    /// The shortest file with the scene's tables and names: refusal 12 in a stricter mode than the one that it was read in.
    pub fn write(&self, mode: Mode) -> Result<Vec<u8>, Refusal> {
        self.tables.write(mode, self.file)
    }

    /// Version, n_texs and the words of the ten tables.
    pub fn tables(&self) -> &Tables {
        &self.tables
    }

    /// The file that the scene was read from.
    pub fn file(&self) -> &'a [u8] {
        self.file
    }
}

/// Tells version, n_texs and how many rows there are, and no name.
impl fmt::Debug for Scene<'_> {
    fn fmt(&self, formatter: &mut fmt::Formatter) -> fmt::Result {
        let mut scene = formatter.debug_struct("Scene");
        scene.field("version", &self.tables.version);
        scene.field("n_texs", &self.tables.n_texs);
        for (table, words) in TABLES.iter().zip(&self.tables.words) {
            scene.field(table.many, &(words.len() / table.words()));
        }
        scene.finish()
    }
}

/// The rows of a table, by a function of its name.
macro_rules! rows {
    ($($name:ident: $row:ident, $table:expr;)*) => {
        impl Scene<'_> {
            $(
                #[doc = concat!("The ", stringify!($name), ", in file order.")]
                pub fn $name(&self) -> Rows<'_, $row<'_>> {
                    Rows::over(&self.tables.words[$table], self.file)
                }
            )*
        }
    };
}

rows! {
    textures: Texture, 0;
    brushes: Brush, 1;
    nodes: Node, 2;
    meshes: Mesh, 3;
    vertices: Vertex, 4;
    triangle_sets: TriangleSet, 5;
    triangles: Triangle, 6;
    weights: Weight, 7;
    key_lists: KeyList, 8;
    keys: Key, 9;
}

row!(
    /// A texture.
    Texture,
    9
);

impl<'a> Texture<'a> {
    pub fn name(&self) -> &'a [u8] {
        name(self.names, self.words[0], self.words[1])
    }

    pub fn flags(&self) -> i32 {
        self.words[2] as i32
    }

    pub fn blend(&self) -> i32 {
        self.words[3] as i32
    }

    /// x and y.
    pub fn position(&self) -> [f32; 2] {
        floats(self.words, 4)
    }

    /// x and y.
    pub fn scale(&self) -> [f32; 2] {
        floats(self.words, 6)
    }

    pub fn rotation(&self) -> f32 {
        f32::from_bits(self.words[8])
    }
}

row!(
    /// A brush.
    Brush,
    17
);

impl<'a> Brush<'a> {
    pub fn name(&self) -> &'a [u8] {
        name(self.names, self.words[0], self.words[1])
    }

    /// Red, green, blue and alpha.
    pub fn colour(&self) -> [f32; 4] {
        floats(self.words, 2)
    }

    pub fn shininess(&self) -> f32 {
        f32::from_bits(self.words[6])
    }

    pub fn blend(&self) -> i32 {
        self.words[7] as i32
    }

    pub fn fx(&self) -> i32 {
        self.words[8] as i32
    }

    /// Its textures by number; a layer that is empty or that no brush of the file has is `None`.
    pub fn textures(&self) -> [Option<usize>; 8] {
        std::array::from_fn(|slot| id(self.words[9 + slot]))
    }
}

/// What a node is.
#[derive(Clone, Debug, PartialEq, Eq)]
pub enum NodeKind {
    /// Nothing but a place.
    Pivot,
    /// A mesh, by its number.
    Mesh(usize),
    /// A bone, with these weights.
    Bone { weights: Range<usize> },
}

/// The animation of a node and those below it.
#[derive(Clone, Copy, Debug, PartialEq)]
pub struct Anim {
    pub flags: i32,
    pub frames: i32,
    pub fps: f32,
}

row!(
    /// A node.
    Node,
    21
);

impl<'a> Node<'a> {
    pub fn name(&self) -> &'a [u8] {
        name(self.names, self.words[0], self.words[1])
    }

    /// The node that it stands below; the root has none.
    pub fn parent(&self) -> Option<usize> {
        id(self.words[2])
    }

    /// x, y and z.
    pub fn position(&self) -> [f32; 3] {
        floats(self.words, 3)
    }

    /// x, y and z.
    pub fn scale(&self) -> [f32; 3] {
        floats(self.words, 6)
    }

    /// w, x, y and z.
    pub fn rotation(&self) -> [f32; 4] {
        floats(self.words, 9)
    }

    pub fn kind(&self) -> NodeKind {
        match self.words[13] {
            1 => NodeKind::Mesh(self.words[14] as usize),
            2 => NodeKind::Bone {
                weights: range(self.words[14], self.words[15]),
            },
            _ => NodeKind::Pivot,
        }
    }

    pub fn anim(&self) -> Option<Anim> {
        (self.words[16] == 1).then(|| Anim {
            flags: self.words[17] as i32,
            frames: self.words[18] as i32,
            fps: f32::from_bits(self.words[19]),
        })
    }

    /// How many nodes are below it, at all depths: they are the next rows.
    pub fn below(&self) -> usize {
        self.words[20] as usize
    }
}

row!(
    /// A mesh.
    Mesh,
    9
);

impl Mesh<'_> {
    /// Its node.
    pub fn node(&self) -> usize {
        self.words[0] as usize
    }

    pub fn brush(&self) -> Option<usize> {
        id(self.words[1])
    }

    /// Whether its vertices have normals.
    pub fn has_normals(&self) -> bool {
        self.words[2] & 1 != 0
    }

    /// Whether its vertices have colours.
    pub fn has_colours(&self) -> bool {
        self.words[2] & 2 != 0
    }

    /// How many sets of texture coordinates its vertices have.
    pub fn sets(&self) -> usize {
        self.words[3] as usize
    }

    /// How many coordinates a set has.
    pub fn set_size(&self) -> usize {
        self.words[4] as usize
    }

    pub fn vertices(&self) -> Range<usize> {
        range(self.words[5], self.words[6])
    }

    pub fn triangle_sets(&self) -> Range<usize> {
        range(self.words[7], self.words[8])
    }
}

row!(
    /// A vertex. What its mesh says that it has not is 0.
    Vertex,
    42
);

impl Vertex<'_> {
    /// x, y and z.
    pub fn position(&self) -> [f32; 3] {
        floats(self.words, 0)
    }

    /// x, y and z.
    pub fn normal(&self) -> [f32; 3] {
        floats(self.words, 3)
    }

    /// Red, green, blue and alpha.
    pub fn colour(&self) -> [f32; 4] {
        floats(self.words, 6)
    }

    /// The coordinates of a set, 0 to 7; of any other `None`.
    pub fn coordinates(&self, set: usize) -> Option<[f32; 4]> {
        (set < 8).then(|| floats(self.words, 10 + 4 * set))
    }
}

row!(
    /// Triangles of one mesh and one brush.
    TriangleSet,
    4
);

impl TriangleSet<'_> {
    pub fn mesh(&self) -> usize {
        self.words[0] as usize
    }

    pub fn brush(&self) -> Option<usize> {
        id(self.words[1])
    }

    pub fn triangles(&self) -> Range<usize> {
        range(self.words[2], self.words[3])
    }
}

row!(
    /// A triangle.
    Triangle,
    3
);

impl Triangle<'_> {
    /// Its vertices, counted from the first one of its mesh on.
    pub fn vertices(&self) -> [usize; 3] {
        std::array::from_fn(|corner| self.words[corner] as usize)
    }
}

row!(
    /// How far a bone moves a vertex.
    Weight,
    2
);

impl Weight<'_> {
    /// The vertex, counted from the first one of its mesh on.
    pub fn vertex(&self) -> usize {
        self.words[0] as usize
    }

    pub fn weight(&self) -> f32 {
        f32::from_bits(self.words[1])
    }
}

row!(
    /// Keys of one kind, of one node.
    KeyList,
    4
);

impl KeyList<'_> {
    pub fn node(&self) -> usize {
        self.words[0] as usize
    }

    /// 1: its keys have positions, 2: scales, 4: rotations.
    pub fn flags(&self) -> u32 {
        self.words[1]
    }

    pub fn keys(&self) -> Range<usize> {
        range(self.words[2], self.words[3])
    }
}

row!(
    /// Where a node is at a frame. What its list says that it has not is 0.
    Key,
    11
);

impl Key<'_> {
    pub fn frame(&self) -> i32 {
        self.words[0] as i32
    }

    /// x, y and z.
    pub fn position(&self) -> [f32; 3] {
        floats(self.words, 1)
    }

    /// x, y and z.
    pub fn scale(&self) -> [f32; 3] {
        floats(self.words, 4)
    }

    /// w, x, y and z.
    pub fn rotation(&self) -> [f32; 4] {
        floats(self.words, 7)
    }
}
