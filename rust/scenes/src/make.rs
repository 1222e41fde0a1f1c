//! Random valid files, with the tables that a reader must fill for them.

use crate::chunk::{Chunk, KNOWN};
use crate::rng::Rng;
use crate::sheet::{Sheet, NAMED, ROW_WORDS};

/// How large a scene may be.
#[derive(Clone, Copy, Debug)]
pub struct Profile {
    pub textures: usize,
    pub brushes: usize,
    pub nodes: usize,
    pub depth: usize,
    /// Percent of nodes that try for one more child.
    pub child_percent: usize,
    pub vertices: usize,
    pub triangle_sets: usize,
    /// Most triangles, weights or keys of one list.
    pub items: usize,
    pub key_lists: usize,
    /// Percent of the gaps between chunks that hold an unknown chunk.
    pub unknown_percent: usize,
}

impl Profile {
    /// Few rows of each table.
    pub const SMALL: Profile = Profile {
        textures: 2,
        brushes: 2,
        nodes: 3,
        depth: 3,
        child_percent: 60,
        vertices: 3,
        triangle_sets: 2,
        items: 2,
        key_lists: 2,
        unknown_percent: 15,
    };

    /// Wide scenes.
    pub const WIDE: Profile = Profile {
        textures: 6,
        brushes: 6,
        nodes: 25,
        depth: 6,
        child_percent: 65,
        vertices: 9,
        triangle_sets: 4,
        items: 6,
        key_lists: 4,
        unknown_percent: 20,
    };

    /// Deep scenes, to level 16.
    pub const DEEP: Profile = Profile {
        textures: 2,
        brushes: 2,
        nodes: 40,
        depth: 16,
        child_percent: 95,
        vertices: 4,
        triangle_sets: 2,
        items: 3,
        key_lists: 2,
        unknown_percent: 5,
    };

    /// Large scenes: at most 15,000 rows in any table, below the row limit.
    pub const LARGE: Profile = Profile {
        textures: 40,
        brushes: 40,
        nodes: 100,
        depth: 16,
        child_percent: 85,
        vertices: 60,
        triangle_sets: 5,
        items: 30,
        key_lists: 5,
        unknown_percent: 10,
    };

    /// One of the above, the large one seldom.
    pub fn any(rng: &mut Rng) -> Profile {
        match rng.below(20) {
            0 => Profile::LARGE,
            1..=5 => Profile::DEEP,
            6..=11 => Profile::WIDE,
            _ => Profile::SMALL,
        }
    }
}

/// A valid file: its chunks, its bytes and its words.
#[derive(Clone, Debug)]
pub struct Scene {
    pub tree: Chunk,
    pub file: Vec<u8>,
    /// The words that a reader must give; the names are the file itself.
    pub sheet: Sheet,
}

/// A random valid file.
pub fn scene(rng: &mut Rng, profile: Profile) -> Scene {
    let mut maker = Maker {
        rng,
        profile,
        sheet: Sheet::default(),
        nodes_left: 0,
        above: Vec::new(),
    };
    let tree = maker.bb3d();
    let mut sheet = maker.sheet;
    let file = tree.bytes();
    set_name_places(&mut sheet, &tree);
    sheet.count_rows();
    sheet.names = file.clone();
    Scene { tree, file, sheet }
}

/// Names stand in the file as their rows do: textures, brushes, nodes.
fn set_name_places(sheet: &mut Sheet, tree: &Chunk) {
    let mut places = tree.name_places().into_iter();
    for table in NAMED {
        for row in sheet.tables[table].chunks_mut(ROW_WORDS[table]) {
            row[0] = places.next().expect("each row has a name") as u32;
        }
    }
}

/// An unknown chunk: a lower case form of a known tag, or any other tag; of
/// any length; its bytes may look like a known chunk.
pub fn unknown(rng: &mut Rng) -> Chunk {
    let mut tag = rng.pick(&KNOWN);
    match rng.below(4) {
        0 => tag = tag.map(|byte| byte.to_ascii_lowercase()),
        1 => tag[rng.between(1, 2)] ^= 0x20,
        2 => tag = *b"XTRA",
        _ => tag[rng.below(4)] = rng.byte(),
    }
    if KNOWN.contains(&tag) {
        tag = *b"node";
    }
    let data = match rng.below(3) {
        0 => Chunk::of_bytes(rng.pick(&KNOWN), rng.bytes(3)).bytes(),
        _ => {
            let length = rng.below(12);
            rng.bytes(length)
        }
    };
    Chunk::of_bytes(tag, data)
}

/// A name: often empty or plain, else of any bytes but zero.
pub fn name(rng: &mut Rng) -> Vec<u8> {
    let length = match rng.below(4) {
        0 => 0,
        1..=2 => rng.between(1, 8),
        _ => rng.between(1, 40),
    };
    let plain = rng.percent(60);
    (0..length)
        .map(|_| match plain {
            true => rng.between(32, 126) as u8,
            false => rng.between(1, 255) as u8,
        })
        .collect()
}

/// The state of making one scene.
struct Maker<'a> {
    rng: &'a mut Rng,
    profile: Profile,
    sheet: Sheet,
    nodes_left: usize,
    /// The nodes around the one that is made, the root first.
    above: Vec<Level>,
}

/// A node around others: whether it has an ANIM, and the vertices of its mesh.
#[derive(Clone, Copy, Default)]
struct Level {
    anim: bool,
    vertices: usize,
}

impl Maker<'_> {
    fn rows(&self, table: usize) -> u32 {
        (self.sheet.tables[table].len() / ROW_WORDS[table]) as u32
    }

    fn push(&mut self, table: usize, row: &[u32]) {
        assert_eq!(row.len(), ROW_WORDS[table]);
        self.sheet.tables[table].extend_from_slice(row);
    }

    fn floats(&mut self, count: usize) -> Vec<u32> {
        (0..count).map(|_| self.rng.float()).collect()
    }

    fn colours(&mut self) -> [u32; 4] {
        std::array::from_fn(|_| self.rng.colour())
    }

    /// Puts unknown chunks between the known ones.
    fn mixed(&mut self, known: Vec<Chunk>) -> Vec<Chunk> {
        let mut chunks = Vec::new();
        for chunk in known {
            self.perhaps_unknown(&mut chunks);
            chunks.push(chunk);
        }
        self.perhaps_unknown(&mut chunks);
        chunks
    }

    fn perhaps_unknown(&mut self, chunks: &mut Vec<Chunk>) {
        while self.rng.percent(self.profile.unknown_percent) {
            chunks.push(unknown(self.rng));
        }
    }

    fn bb3d(&mut self) -> Chunk {
        let version = self.rng.pick(&[0, 1, 1, 1, 50, 99]);
        self.sheet.version = version;
        let mut chunk = Chunk::new(b"BB3D");
        chunk.begin_fixed();
        chunk.ranged(version, 99);
        let mut known = Vec::new();
        if self.rng.percent(70) {
            known.push(self.texs());
        }
        if self.rng.percent(70) {
            known.push(self.brus());
        }
        if self.rng.percent(95) {
            self.nodes_left = self.rng.between(1, self.profile.nodes);
            known.push(self.node(0xFFFF_FFFF));
        }
        chunk.chunks = self.mixed(known);
        chunk
    }

    fn texs(&mut self) -> Chunk {
        let mut chunk = Chunk::new(b"TEXS");
        for _ in 0..self.rng.between(0, self.profile.textures) {
            let name = name(self.rng);
            let flags = self.rng.pick(&[1, 65536, 65537, 0x8000_0001]);
            let blend = self.rng.pick(&[0, 2, 5, 0xFFFF_FFFF]);
            let floats = self.floats(5);
            chunk.begin_item();
            chunk.name(&name);
            chunk.words(&[flags, blend]);
            chunk.words(&floats);
            let mut row = vec![0, name.len() as u32, flags, blend];
            row.extend(floats);
            self.push(0, &row);
        }
        chunk
    }

    fn brus(&mut self) -> Chunk {
        let textures = self.rows(0);
        let brushes = self.rng.between(0, self.profile.brushes);
        let n_texs = self.rng.between(0, 8);
        let mut chunk = Chunk::new(b"BRUS");
        chunk.begin_fixed();
        chunk.ranged(n_texs as u32, 8);
        for _ in 0..brushes {
            self.sheet.n_texs = n_texs as u32;
            self.brush(&mut chunk, n_texs, textures);
        }
        chunk
    }

    fn brush(&mut self, chunk: &mut Chunk, n_texs: usize, textures: u32) {
        let name = name(self.rng);
        let colours = self.colours();
        let shininess = self.rng.float();
        let (blend, fx) = (self.rng.pick(&[0, 1, 3]), self.rng.word());
        chunk.begin_item();
        chunk.name(&name);
        chunk.coloured(&colours);
        chunk.words(&[shininess, blend, fx]);
        let mut row = vec![0, name.len() as u32];
        row.extend(colours);
        row.extend([shininess, blend, fx]);
        for _ in 0..n_texs {
            let id = self.id_or_none(textures);
            chunk.id_or_none(id, textures);
            row.push(id);
        }
        row.resize(17, 0xFFFF_FFFF);
        self.push(1, &row);
    }

    /// A node and all inside it.
    fn node(&mut self, parent: u32) -> Chunk {
        self.nodes_left -= 1;
        let number = self.rows(2);
        let name = name(self.rng);
        let floats = self.floats(10);
        let mut chunk = Chunk::new(b"NODE");
        chunk.begin_fixed();
        chunk.name(&name);
        chunk.words(&floats);
        let mut row = vec![0, name.len() as u32, parent];
        row.extend(&floats);
        row.resize(ROW_WORDS[2], 0);
        self.push(2, &row);
        let mut known = Vec::new();
        let vertices = self.kind(&mut known, number);
        let anim = self.keys_and_anim(&mut known, number);
        self.above.push(Level { anim, vertices });
        while self.nodes_left > 0
            && self.above.len() < self.profile.depth
            && self.rng.percent(self.profile.child_percent)
        {
            known.push(self.node(number));
        }
        self.above.pop();
        self.sheet.row_mut(2, number as usize)[20] = self.rows(2) - number - 1;
        chunk.chunks = self.mixed(known);
        chunk
    }

    /// Perhaps a MESH or BONE; gives the vertices of the MESH. Roots are meshes
    /// more often, for the bones.
    fn kind(&mut self, known: &mut Vec<Chunk>, node: u32) -> usize {
        let choice = match self.above.len() {
            0 => self.rng.pick(&[0, 1, 1, 1, 1, 2]),
            _ => self.rng.pick(&[0, 1, 2, 2]),
        };
        let before = self.rows(4);
        let (first, count) = match choice {
            1 => {
                let number = self.rows(3);
                known.push(self.mesh(node));
                (number, 1)
            }
            2 => {
                let first = self.rows(7);
                known.push(self.bone());
                (first, self.rows(7) - first)
            }
            _ => (0, 0),
        };
        let row = self.sheet.row_mut(2, node as usize);
        row[13..16].copy_from_slice(&[choice, first, count]);
        (self.rows(4) - before) as usize
    }

    /// An id of one of `count` rows, or -1.
    fn id_or_none(&mut self, count: u32) -> u32 {
        match count {
            0 => 0xFFFF_FFFF,
            _ if self.rng.percent(70) => self.rng.below(count as usize) as u32,
            _ => 0xFFFF_FFFF,
        }
    }

    fn mesh(&mut self, node: u32) -> Chunk {
        let number = self.rows(3);
        let brush = self.id_or_none(self.rows(1));
        let mut chunk = Chunk::new(b"MESH");
        chunk.begin_fixed();
        chunk.id_or_none(brush, self.rows(1));
        let flags = self.rng.below(4) as u32;
        let sets = self.rng.between(0, 8) as u32;
        let set_size = self.rng.between(0, 4) as u32;
        let (first_vertex, first_set) = (self.rows(4), self.rows(5));
        let mut known = vec![self.vrts(flags, sets, set_size)];
        let vertices = self.rows(4) - first_vertex;
        for _ in 0..self.rng.between(1, self.profile.triangle_sets) {
            known.push(self.tris(number, vertices as usize));
        }
        let triangle_sets = self.rows(5) - first_set;
        self.push(
            3,
            &[
                node,
                brush,
                flags,
                sets,
                set_size,
                first_vertex,
                vertices,
                first_set,
                triangle_sets,
            ],
        );
        chunk.chunks = self.mixed(known);
        chunk
    }

    fn vrts(&mut self, flags: u32, sets: u32, set_size: u32) -> Chunk {
        let mut chunk = Chunk::new(b"VRTS");
        chunk.begin_fixed();
        chunk.ranged(flags, 3);
        chunk.ranged(sets, 8);
        chunk.ranged(set_size, 4);
        for _ in 0..self.rng.between(0, self.profile.vertices) {
            chunk.begin_item();
            let mut row = self.floats(42);
            row[6..10].copy_from_slice(&self.colours());
            if flags & 1 == 0 {
                row[3..6].fill(0);
            }
            if flags & 2 == 0 {
                row[6..10].fill(0);
            }
            chunk.words(&row[..3]);
            if flags & 1 == 1 {
                chunk.words(&row[3..6]);
            }
            if flags & 2 == 2 {
                chunk.coloured(&row[6..10]);
            }
            for (set, words) in row[10..].chunks_mut(4).enumerate() {
                let used = match set < sets as usize {
                    true => set_size as usize,
                    false => 0,
                };
                words[used..].fill(0);
                chunk.words(&words[..used]);
            }
            self.push(4, &row);
        }
        chunk
    }

    fn tris(&mut self, mesh: u32, vertices: usize) -> Chunk {
        let brush = self.id_or_none(self.rows(1));
        let mut chunk = Chunk::new(b"TRIS");
        chunk.begin_fixed();
        chunk.id_or_none(brush, self.rows(1));
        let first = self.rows(6);
        let count = match vertices {
            0 => 0,
            _ => self.rng.between(0, self.profile.items),
        };
        for _ in 0..count {
            let ids: [u32; 3] = std::array::from_fn(|_| self.rng.below(vertices) as u32);
            chunk.begin_item();
            for id in ids {
                chunk.id(id, vertices as u32);
            }
            self.push(6, &ids);
        }
        self.push(5, &[mesh, brush, first, count as u32]);
        chunk
    }

    /// A BONE of the nearest node above with an ANIM, of the root if none has
    /// one.
    fn bone(&mut self) -> Chunk {
        let mut chunk = Chunk::new(b"BONE");
        let nearest = self.above.iter().rev().find(|level| level.anim);
        let chosen = nearest.or(self.above.first()).copied();
        let vertices = chosen.unwrap_or_default().vertices;
        let count = match vertices {
            0 => 0,
            _ => self.rng.between(0, self.profile.items),
        };
        for _ in 0..count {
            let (id, weight) = (self.rng.below(vertices) as u32, self.rng.float());
            chunk.begin_item();
            chunk.id(id, vertices as u32);
            chunk.word(weight);
            self.push(7, &[id, weight]);
        }
        chunk
    }

    /// KEYS chunks, with perhaps an ANIM before, between or after them; tells
    /// whether there is one.
    fn keys_and_anim(&mut self, known: &mut Vec<Chunk>, node: u32) -> bool {
        let lists = self.rng.between(0, self.profile.key_lists);
        let anim_at = match self.rng.percent(40) {
            true => Some(self.rng.between(0, lists)),
            false => None,
        };
        for list in 0..=lists {
            if anim_at == Some(list) {
                known.push(self.anim(node));
            }
            if list < lists {
                known.push(self.keys(node));
            }
        }
        anim_at.is_some()
    }

    fn anim(&mut self, node: u32) -> Chunk {
        let values = [
            self.rng.pick(&[0, 1, 0xFFFF_FFFF]),
            self.rng.pick(&[0, 100, 0x8000_0000]),
            self.rng.float(),
        ];
        let mut chunk = Chunk::new(b"ANIM");
        chunk.begin_fixed();
        chunk.words(&values);
        let row = self.sheet.row_mut(2, node as usize);
        row[16] = 1;
        row[17..20].copy_from_slice(&values);
        chunk
    }

    fn keys(&mut self, node: u32) -> Chunk {
        let flags = self.rng.below(8) as u32;
        let mut chunk = Chunk::new(b"KEYS");
        chunk.begin_fixed();
        chunk.ranged(flags, 7);
        let first = self.rows(9);
        let count = self.rng.between(0, self.profile.items);
        for _ in 0..count {
            let mut row = self.floats(11);
            chunk.begin_item();
            chunk.word(row[0]);
            for (flag, words) in [(1, 1..4), (2, 4..7), (4, 7..11)] {
                if flags & flag == flag {
                    chunk.words(&row[words]);
                } else {
                    row[words].fill(0);
                }
            }
            self.push(9, &row);
        }
        self.push(8, &[node, flags, first, count as u32]);
        chunk
    }
}
