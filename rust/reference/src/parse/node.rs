//! NODE, BONE, KEYS and ANIM.

use crate::chunks::{chunk_at, Chunk};
use crate::layout::key_cells;
use crate::limits::{DEEPEST_NODE, HIGHEST_KEY_FLAGS};
use crate::numbers::{any_numbers, fits, id, items, ranged, text_then, words};
use crate::parse::mesh::mesh;
use crate::refusal::{refuse, Refusal, CUT, DEPTH, TAG};
use crate::scene::{Items, KeyList, Kind, Node};
use crate::Mode;

/// What the inside of every node needs to know.
struct Nodes<'a> {
    mode: Mode,
    file: &'a [u8],
    brushes: usize,
    /// The nodes around the one that is read, the root first.
    above: Vec<Level>,
}

/// A node around others, whose kind, KEYS and ANIM are read.
struct Level {
    has_anim: bool,
    /// Vertices of its MESH: 0 if it has none.
    vertices: usize,
}

/// The root node, at depth 1.
pub fn root(mode: Mode, file: &[u8], chunk: &Chunk, brushes: usize) -> Result<Node, Refusal> {
    let mut nodes = Nodes {
        mode,
        file,
        brushes,
        above: Vec::new(),
    };
    nodes.node(chunk)
}

impl Nodes<'_> {
    /// NODE inside those above: 9 at the header if too deep, then the fixed
    /// data, then the chunks inside.
    fn node(&mut self, chunk: &Chunk) -> Result<Node, Refusal> {
        if self.above.len() >= DEEPEST_NODE {
            return refuse(DEPTH, chunk.header);
        }
        let (name, floats) = text_then(self.file, chunk.body, 40, chunk.end)?;
        let mut node = Node {
            name,
            floats: words(self.file, floats),
            kind: Kind::Pivot,
            key_lists: Vec::new(),
            anim: None,
            children: Vec::new(),
        };
        self.inside(&mut node, floats + 40, chunk.end)?;
        Ok(node)
    }

    /// The chunks of a node: at most one MESH or BONE, first; then KEYS, any
    /// number, and at most one ANIM, in any order; then NODE, any number.
    fn inside(&mut self, node: &mut Node, start: usize, end: usize) -> Result<(), Refusal> {
        let mut at = start;
        // No known chunk has stood here yet.
        let mut first = true;
        while let Some(inner) = chunk_at(self.file, at, end)? {
            at = inner.end;
            let no_child = node.children.is_empty();
            match &inner.tag {
                b"MESH" if first => {
                    node.kind = Kind::Mesh(mesh(self.mode, self.file, &inner, self.brushes)?);
                }
                b"BONE" if first => node.kind = Kind::Bone(self.bone(&inner)?),
                b"KEYS" if no_child => node.key_lists.push(keys(self.file, &inner)?),
                b"ANIM" if no_child && node.anim.is_none() => {
                    node.anim = Some(anim(self.file, &inner)?);
                }
                b"NODE" => node.children.push(self.child(node, &inner)?),
                _ if inner.is_known() => return refuse(TAG, inner.header),
                _ => continue,
            }
            first = false;
        }
        Ok(())
    }

    /// A node inside this one.
    fn child(&mut self, node: &Node, chunk: &Chunk) -> Result<Node, Refusal> {
        self.above.push(Level {
            has_anim: node.anim.is_some(),
            vertices: match &node.kind {
                Kind::Mesh(mesh) => mesh.vertices.items.count,
                _ => 0,
            },
        });
        let child = self.node(chunk)?;
        self.above.pop();
        Ok(child)
    }

    /// BONE: items of a vertex id, naming a vertex of the MESH of the nearest
    /// node above with an ANIM, of the root if none has one, and a weight.
    fn bone(&self, chunk: &Chunk) -> Result<Items, Refusal> {
        let nearest = self.above.iter().rev().find(|level| level.has_anim);
        let vertices = nearest
            .or(self.above.first())
            .map_or(0, |level| level.vertices);
        items(chunk.body, chunk.end, 8, |item| {
            id(self.file, item, vertices)?;
            Ok(())
        })
    }
}

/// KEYS: flags, then the keys.
pub fn keys(file: &[u8], chunk: &Chunk) -> Result<KeyList, Refusal> {
    fits(chunk.body, 4, chunk.end)?;
    let flags = ranged(file, chunk.body, HIGHEST_KEY_FLAGS)?;
    let size = 4 * key_cells(flags).len();
    Ok(KeyList {
        flags,
        items: items(chunk.body + 4, chunk.end, size, any_numbers)?,
    })
}

/// ANIM: flags, frames, fps; 5 at their start if the length is not 12.
pub fn anim(file: &[u8], chunk: &Chunk) -> Result<[u32; 3], Refusal> {
    if chunk.end - chunk.body != 12 {
        return refuse(CUT, chunk.body);
    }
    Ok(words(file, chunk.body))
}
