//! MESH, VRTS and TRIS.

use crate::chunks::{chunk_at, Chunk};
use crate::layout::vertex_cells;
use crate::limits::{HIGHEST_VERTEX_FLAGS, LARGEST_SET, MOST_SETS};
use crate::numbers::{colours, fits, id, id_or_none, items, ranged};
use crate::refusal::{refuse, Refusal, NO_MESH_DATA, TAG};
use crate::scene::{Mesh, TriangleSet, Vertices};
use crate::Mode;

/// MESH: brush id, then one VRTS, then one or more TRIS. 8 at the header if it
/// ends without either.
pub fn mesh(mode: Mode, file: &[u8], chunk: &Chunk, brushes: usize) -> Result<Mesh, Refusal> {
    fits(chunk.body, 4, chunk.end)?;
    let brush = id_or_none(file, chunk.body, brushes)?;
    let mut vertices: Option<Vertices> = None;
    let mut triangle_sets = Vec::new();
    let mut at = chunk.body + 4;
    while let Some(inner) = chunk_at(file, at, chunk.end)? {
        at = inner.end;
        match (&inner.tag, &vertices) {
            (b"VRTS", None) => vertices = Some(vrts(mode, file, &inner)?),
            (b"TRIS", Some(own)) => {
                triangle_sets.push(tris(file, &inner, brushes, own.items.count)?);
            }
            _ if inner.is_known() => return refuse(TAG, inner.header),
            _ => {}
        }
    }
    match vertices {
        Some(vertices) if !triangle_sets.is_empty() => Ok(Mesh {
            brush,
            vertices,
            triangle_sets,
        }),
        _ => refuse(NO_MESH_DATA, chunk.header),
    }
}

/// VRTS: flags, sets, set size, then the vertices. The colour stands behind
/// position and normal.
pub fn vrts(mode: Mode, file: &[u8], chunk: &Chunk) -> Result<Vertices, Refusal> {
    fits(chunk.body, 12, chunk.end)?;
    let flags = ranged(file, chunk.body, HIGHEST_VERTEX_FLAGS)?;
    let sets = ranged(file, chunk.body + 4, MOST_SETS)?;
    let set_size = ranged(file, chunk.body + 8, LARGEST_SET)?;
    let size = 4 * vertex_cells(flags, sets, set_size).len();
    Ok(Vertices {
        flags,
        sets,
        set_size,
        items: items(chunk.body + 12, chunk.end, size, |item| {
            match (flags & 1 != 0, flags & 2 != 0) {
                (_, false) => Ok(()),
                (false, true) => colours(mode, file, item + 12),
                (true, true) => colours(mode, file, item + 24),
            }
        })?,
    })
}

/// TRIS: brush id, then triangles of three ids, each naming one of the
/// `vertices` of the same mesh.
fn tris(
    file: &[u8],
    chunk: &Chunk,
    brushes: usize,
    vertices: usize,
) -> Result<TriangleSet, Refusal> {
    fits(chunk.body, 4, chunk.end)?;
    let brush = id_or_none(file, chunk.body, brushes)?;
    let items = items(chunk.body + 4, chunk.end, 12, |item| {
        for corner in 0..3 {
            id(file, item + 4 * corner, vertices)?;
        }
        Ok(())
    })?;
    Ok(TriangleSet { brush, items })
}
