//! Chunks as a tree. Lengths are right by construction, unless a damage asks
//! for a wrong one.

/// The known tags.
pub const KNOWN: [[u8; 4]; 10] = [
    *b"BB3D", *b"TEXS", *b"BRUS", *b"NODE", *b"MESH", *b"VRTS", *b"TRIS", *b"BONE", *b"KEYS",
    *b"ANIM",
];

/// An id in the data of a chunk.
#[derive(Clone, Copy, Debug)]
pub struct Id {
    /// Where in the data it stands.
    pub at: usize,
    /// How many rows it can name.
    pub count: u32,
    /// Whether -1 is allowed.
    pub minus_one: bool,
}

/// A chunk: data, then chunks. The marks tell damages what stands where in
/// the data; they do not change the bytes.
#[derive(Clone, Debug, Default)]
pub struct Chunk {
    pub tag: [u8; 4],
    /// Fixed data and items.
    pub data: Vec<u8>,
    pub chunks: Vec<Chunk>,
    /// Bytes after the last chunk; a valid file has none.
    pub tail: Vec<u8>,
    /// The length to write in place of the right one.
    pub wrong_length: Option<u32>,
    /// Where names start.
    pub names: Vec<usize>,
    /// Where fixed data and items start.
    pub pieces: Vec<usize>,
    /// Whether the first piece is fixed data.
    pub has_fixed: bool,
    /// Numbers with a range: where, and the highest.
    pub ranged: Vec<(usize, u32)>,
    pub ids: Vec<Id>,
    /// Where colours stand.
    pub colours: Vec<usize>,
}

impl Chunk {
    /// A chunk without data.
    pub fn new(tag: &[u8; 4]) -> Chunk {
        Chunk {
            tag: *tag,
            ..Chunk::default()
        }
    }

    /// A chunk of this tag and body.
    pub fn of_bytes(tag: [u8; 4], data: Vec<u8>) -> Chunk {
        Chunk {
            tag,
            data,
            ..Chunk::default()
        }
    }

    /// Whether the tag is known.
    pub fn is_known(&self) -> bool {
        KNOWN.contains(&self.tag)
    }

    /// Begins the fixed data.
    pub fn begin_fixed(&mut self) {
        self.has_fixed = true;
        self.begin_item();
    }

    /// Begins an item.
    pub fn begin_item(&mut self) {
        self.pieces.push(self.data.len());
    }

    /// Adds a name and its zero byte.
    pub fn name(&mut self, name: &[u8]) {
        self.names.push(self.data.len());
        self.data.extend_from_slice(name);
        self.data.push(0);
    }

    /// Adds a number.
    pub fn word(&mut self, word: u32) {
        self.data.extend_from_slice(&word.to_le_bytes());
    }

    /// Adds numbers.
    pub fn words(&mut self, words: &[u32]) {
        for &word in words {
            self.word(word);
        }
    }

    /// Adds colours.
    pub fn coloured(&mut self, words: &[u32]) {
        for &word in words {
            self.colours.push(self.data.len());
            self.word(word);
        }
    }

    /// Adds a number from 0 to `highest`.
    pub fn ranged(&mut self, word: u32, highest: u32) {
        self.ranged.push((self.data.len(), highest));
        self.word(word);
    }

    /// Adds an id of one of `count` rows.
    pub fn id(&mut self, word: u32, count: u32) {
        let at = self.data.len();
        let minus_one = false;
        self.ids.push(Id {
            at,
            count,
            minus_one,
        });
        self.word(word);
    }

    /// Adds an id of one of `count` rows, or -1.
    pub fn id_or_none(&mut self, word: u32, count: u32) {
        let at = self.data.len();
        let minus_one = true;
        self.ids.push(Id {
            at,
            count,
            minus_one,
        });
        self.word(word);
    }

    /// Changes a number in the data.
    pub fn set_word(&mut self, at: usize, word: u32) {
        self.data[at..at + 4].copy_from_slice(&word.to_le_bytes());
    }

    /// The end in the data of the piece with this number.
    pub fn piece_end(&self, piece: usize) -> usize {
        match self.pieces.get(piece + 1) {
            Some(&next) => next,
            None => self.data.len(),
        }
    }

    /// Bytes after the header.
    pub fn body_size(&self) -> usize {
        let chunks: usize = self.chunks.iter().map(Chunk::size).sum();
        self.data.len() + chunks + self.tail.len()
    }

    /// Bytes with the header.
    pub fn size(&self) -> usize {
        8 + self.body_size()
    }

    /// The bytes of the chunk.
    pub fn bytes(&self) -> Vec<u8> {
        let mut bytes = Vec::with_capacity(self.size());
        self.put(&mut bytes);
        bytes
    }

    fn put(&self, bytes: &mut Vec<u8>) {
        bytes.extend_from_slice(&self.tag);
        let length_at = bytes.len();
        bytes.extend_from_slice(&[0; 4]);
        let body = bytes.len();
        bytes.extend_from_slice(&self.data);
        for chunk in &self.chunks {
            chunk.put(bytes);
        }
        bytes.extend_from_slice(&self.tail);
        let length = match self.wrong_length {
            Some(length) => length,
            None => (bytes.len() - body) as u32,
        };
        bytes[length_at..body].copy_from_slice(&length.to_le_bytes());
    }

    /// The places of all names in the file that this chunk begins.
    pub fn name_places(&self) -> Vec<usize> {
        let mut places = Vec::new();
        for spot in self.spots() {
            for name in &self.at(&spot.path).names {
                places.push(spot.place + 8 + name);
            }
        }
        places
    }

    /// The chunk at the end of a path from this one.
    pub fn at(&self, path: &[usize]) -> &Chunk {
        path.iter().fold(self, |chunk, &step| &chunk.chunks[step])
    }

    /// The same, to change it.
    pub fn at_mut(&mut self, path: &[usize]) -> &mut Chunk {
        path.iter()
            .fold(self, |chunk, &step| &mut chunk.chunks[step])
    }

    /// All chunks of the file that this chunk begins, in file order.
    pub fn spots(&self) -> Vec<Spot> {
        let mut spots = Vec::new();
        let own = Spot {
            tag: self.tag,
            path: Vec::new(),
            place: 0,
            end: self.size(),
            enclosing_end: self.size(),
            node_depth: 0,
        };
        self.add_spots(own, &mut spots);
        spots
    }

    fn add_spots(&self, own: Spot, spots: &mut Vec<Spot>) {
        let mut place = own.place + 8 + self.data.len();
        let path = own.path.clone();
        let (end, depth) = (own.end, own.node_depth);
        spots.push(own);
        for (step, chunk) in self.chunks.iter().enumerate() {
            let mut inner = path.clone();
            inner.push(step);
            let spot = Spot {
                tag: chunk.tag,
                path: inner,
                place,
                end: place + chunk.size(),
                enclosing_end: end,
                node_depth: depth + usize::from(&chunk.tag == b"NODE"),
            };
            place = spot.end;
            chunk.add_spots(spot, spots);
        }
    }

    /// The place of the header of the chunk at the end of a path.
    pub fn place_of(&self, path: &[usize]) -> usize {
        let mut chunk = self;
        let mut place = 0;
        for &step in path {
            let before: usize = chunk.chunks[..step].iter().map(Chunk::size).sum();
            place += 8 + chunk.data.len() + before;
            chunk = &chunk.chunks[step];
        }
        place
    }
}

/// Where a chunk stands.
#[derive(Clone, Debug)]
pub struct Spot {
    pub tag: [u8; 4],
    /// Which chunk to take at each level, from the outermost on.
    pub path: Vec<usize>,
    /// The place of the header.
    pub place: usize,
    pub end: usize,
    pub enclosing_end: usize,
    /// Nodes around it, itself included.
    pub node_depth: usize,
}
