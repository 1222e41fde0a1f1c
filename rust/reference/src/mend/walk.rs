//! Finds what is to be mended, and the first fault of another kind, in reading
//! order. What is taken out has no rows.

use super::{Mend, Which};
use crate::chunks::{chunk_at, Chunk, HEADER_SIZE};
use crate::limits::*;
use crate::numbers::{fits, id, id_or_none, ranged, text_then, word};
use crate::parse::materials::texs;
use crate::parse::mesh::vrts;
use crate::parse::node::{anim, keys};
use crate::parse::{check_first_tag, check_size};
use crate::refusal::{refuse, Refusal, DEPTH, NO_MESH_DATA, ROWS, TAG};
use crate::Mode;

/// All that the walk has met.
pub struct Walk<'a> {
    file: &'a [u8],
    /// In order of their places.
    pub mends: Vec<Mend>,
    /// The chunks inside which bytes may be taken out.
    pub chunks: Vec<Chunk>,
    /// The rows of the mended file.
    rows: [usize; 10],
}

/// A node around others: whether it has an ANIM, and the vertices of its MESH.
#[derive(Clone, Copy, Default)]
struct Level {
    anim: bool,
    vertices: usize,
}

/// The mends of a file without faults of another kind.
pub fn walk(file: &[u8]) -> Result<Walk<'_>, Refusal> {
    check_size(file)?;
    check_first_tag(file)?;
    let mut walk = Walk {
        file,
        mends: Vec::new(),
        chunks: Vec::new(),
        rows: [0; 10],
    };
    // Its end is the file's, whatever its length says.
    let chunk = Chunk {
        tag: *b"BB3D",
        header: 0,
        body: HEADER_SIZE,
        end: file.len(),
    };
    if word(file, 4) as usize != chunk.end - chunk.body {
        walk.mend(Which::Length, 4, 4);
    }
    walk.bb3d(chunk)?;
    match walk.rows.iter().position(|&rows| rows > MOST_ROWS) {
        Some(table) => refuse(ROWS, table + 1),
        None => Ok(walk),
    }
}

impl Walk<'_> {
    fn mend(&mut self, which: Which, place: usize, size: usize) {
        self.mends.push(Mend { which, place, size });
    }

    /// The chunk at `at` inside one that ends at `end`; 1 to 7 bytes there are
    /// spare, and no chunk.
    fn next(&mut self, at: usize, end: usize) -> Result<Option<Chunk>, Refusal> {
        let left = end - at;
        if (1..HEADER_SIZE).contains(&left) {
            self.mend(Which::Spare, at, left);
            return Ok(None);
        }
        chunk_at(self.file, at, end)
    }

    /// A brush or texture id, of `count` that there are.
    fn id_or_none(&mut self, place: usize, count: usize) {
        if id_or_none(self.file, place, count).is_err() {
            self.mend(Which::Id, place, 4);
        }
    }

    /// Items of `size` bytes that begin with `ids` vertex ids, one that is cut
    /// being refused before its ids are looked at; how many stay.
    fn items(
        &mut self,
        (start, end): (usize, usize),
        size: usize,
        ids: usize,
        vertices: usize,
    ) -> Result<usize, Refusal> {
        let mut stay = 0;
        for item in (start..end).step_by(size) {
            fits(item, size, end)?;
            let good = |number| id(self.file, item + 4 * number, vertices).is_ok();
            match (0..ids).all(good) {
                true => stay += 1,
                false => self.mend(Which::Item, item, size),
            }
        }
        Ok(stay)
    }

    fn bb3d(&mut self, chunk: Chunk) -> Result<(), Refusal> {
        fits(chunk.body, 4, chunk.end)?;
        ranged(self.file, chunk.body, HIGHEST_VERSION)?;
        // What may still come, in order.
        let mut left: &[&[u8; 4]] = &[b"TEXS", b"BRUS", b"NODE"];
        let mut at = chunk.body + 4;
        while let Some(inner) = self.next(at, chunk.end)? {
            at = inner.end;
            if !inner.is_known() {
                continue;
            }
            let Some(step) = left.iter().position(|&tag| tag == &inner.tag) else {
                return refuse(TAG, inner.header);
            };
            left = &left[step + 1..];
            match &inner.tag {
                b"TEXS" => self.rows[TEXTURES] = texs(self.file, &inner)?.len(),
                b"BRUS" => self.brus(&inner)?,
                _ => self.node(inner, &mut Vec::new())?,
            }
        }
        self.chunks.push(chunk);
        Ok(())
    }

    fn brus(&mut self, chunk: &Chunk) -> Result<(), Refusal> {
        fits(chunk.body, 4, chunk.end)?;
        let n_texs = ranged(self.file, chunk.body, MOST_SLOTS)? as usize;
        let size = 28 + 4 * n_texs;
        let mut at = chunk.body + 4;
        while at < chunk.end {
            let (_, numbers) = text_then(self.file, at, size, chunk.end)?;
            at = numbers + size;
            for slot in 0..n_texs {
                self.id_or_none(numbers + 28 + 4 * slot, self.rows[TEXTURES]);
            }
            self.rows[BRUSHES] += 1;
        }
        Ok(())
    }

    /// A node inside those of `above`, the root first.
    fn node(&mut self, chunk: Chunk, above: &mut Vec<Level>) -> Result<(), Refusal> {
        if above.len() == DEEPEST_NODE {
            return refuse(DEPTH, chunk.header);
        }
        let (_, floats) = text_then(self.file, chunk.body, 40, chunk.end)?;
        self.rows[NODES] += 1;
        let mut own = Level::default();
        let (mut first, mut child) = (true, false);
        let mut at = floats + 40;
        while let Some(inner) = self.next(at, chunk.end)? {
            at = inner.end;
            match &inner.tag {
                b"MESH" if first => own.vertices = self.mesh(inner)?,
                b"BONE" if first => self.bone(inner, above)?,
                b"KEYS" if !child => {
                    self.rows[KEY_LISTS] += 1;
                    self.rows[KEYS] += keys(self.file, &inner)?.items.count;
                }
                b"ANIM" if !child && !own.anim => {
                    anim(self.file, &inner)?;
                    own.anim = true;
                }
                b"NODE" => {
                    child = true;
                    above.push(own);
                    self.node(inner, above)?;
                    above.pop();
                }
                _ if inner.is_known() => return refuse(TAG, inner.header),
                _ => continue,
            }
            first = false;
        }
        self.chunks.push(chunk);
        Ok(())
    }

    /// Gives its vertices.
    fn mesh(&mut self, chunk: Chunk) -> Result<usize, Refusal> {
        fits(chunk.body, 4, chunk.end)?;
        self.id_or_none(chunk.body, self.rows[BRUSHES]);
        let mut vertices = None;
        let mut sets = 0;
        let mut at = chunk.body + 4;
        while let Some(inner) = self.next(at, chunk.end)? {
            at = inner.end;
            match (&inner.tag, vertices) {
                (b"VRTS", None) => {
                    vertices = Some(vrts(Mode::Lenient, self.file, &inner)?.items.count);
                }
                (b"TRIS", Some(vertices)) => {
                    self.tris(inner, vertices)?;
                    sets += 1;
                }
                _ if inner.is_known() => return refuse(TAG, inner.header),
                _ => {}
            }
        }
        let Some(vertices) = vertices.filter(|_| sets > 0) else {
            return refuse(NO_MESH_DATA, chunk.header);
        };
        self.rows[MESHES] += 1;
        self.rows[VERTICES] += vertices;
        self.rows[TRIANGLE_SETS] += sets;
        self.chunks.push(chunk);
        Ok(vertices)
    }

    fn tris(&mut self, chunk: Chunk, vertices: usize) -> Result<(), Refusal> {
        fits(chunk.body, 4, chunk.end)?;
        self.id_or_none(chunk.body, self.rows[BRUSHES]);
        self.rows[TRIANGLES] += self.items((chunk.body + 4, chunk.end), 12, 3, vertices)?;
        self.chunks.push(chunk);
        Ok(())
    }

    /// Its vertices are those of the nearest node above with an ANIM, of the root
    /// if none has one.
    fn bone(&mut self, chunk: Chunk, above: &[Level]) -> Result<(), Refusal> {
        let nearest = above.iter().rfind(|level| level.anim).or(above.first());
        let vertices = nearest.map_or(0, |level| level.vertices);
        self.rows[WEIGHTS] += self.items((chunk.body, chunk.end), 8, 1, vertices)?;
        self.chunks.push(chunk);
        Ok(())
    }
}
