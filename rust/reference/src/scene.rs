//! A file without faults 1 to 9, as a tree. Long lists stay in the file and
//! are held by their place.

/// A text: its place in the file and its length without the zero byte.
pub struct Name {
    pub place: usize,
    pub length: usize,
}

/// Items of one size that stand one after the other in the file.
pub struct Items {
    pub place: usize,
    pub size: usize,
    pub count: usize,
}

impl Items {
    /// The places of the items, in file order.
    pub fn places(&self) -> impl Iterator<Item = usize> + '_ {
        (0..self.count).map(|i| self.place + i * self.size)
    }
}

/// The whole file.
pub struct Scene {
    pub version: u32,
    /// As encoded in BRUS, 0 without BRUS.
    pub n_texs: u32,
    pub textures: Vec<Texture>,
    pub brushes: Vec<Brush>,
    pub root: Option<Node>,
}

/// An item of TEXS.
pub struct Texture {
    pub name: Name,
    /// Flags, blend and 5 floats.
    pub numbers: [u32; 7],
}

/// An item of BRUS.
pub struct Brush {
    pub name: Name,
    /// 5 floats, blend and fx.
    pub numbers: [u32; 7],
    /// The texture ids, NONE for -1, then NONE for each unused slot.
    pub slots: [u32; 8],
}

/// A NODE.
pub struct Node {
    pub name: Name,
    /// 3 position, 3 scale and 4 rotation floats.
    pub floats: [u32; 10],
    pub kind: Kind,
    pub key_lists: Vec<KeyList>,
    /// Flags, frames and fps of ANIM.
    pub anim: Option<[u32; 3]>,
    pub children: Vec<Node>,
}

/// What a node is.
pub enum Kind {
    Pivot,
    Mesh(Mesh),
    /// The items of BONE.
    Bone(Items),
}

/// A MESH.
pub struct Mesh {
    pub brush: u32,
    pub vertices: Vertices,
    pub triangle_sets: Vec<TriangleSet>,
}

/// A VRTS.
pub struct Vertices {
    pub flags: u32,
    pub sets: u32,
    pub set_size: u32,
    pub items: Items,
}

/// A TRIS.
pub struct TriangleSet {
    pub brush: u32,
    pub items: Items,
}

/// A KEYS.
pub struct KeyList {
    pub flags: u32,
    pub items: Items,
}
