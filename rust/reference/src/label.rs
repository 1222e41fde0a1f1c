//! The tray label (paper 02, E7): the root's name and the vertices of its mesh,
//! by a walk over headers that judges nothing else.

use crate::chunks::{chunk_at, Chunk};
use crate::numbers::{fits, ranged, text_then};
use crate::refusal::Refusal;

/// What the label says. All but the number are 0 on refusal.
#[derive(Clone, Copy, Debug, Default, PartialEq, Eq)]
pub struct Label {
    pub number: u32,
    pub place: u32,
    pub name_place: usize,
    pub name_length: usize,
    pub vertices: usize,
}

/// The number of every refusal of the walk.
const NO_LABEL: u32 = 14;

/// The label of a file; 14 where the walk ends early.
pub fn label(file: &[u8]) -> Label {
    walk(file).unwrap_or(Label {
        number: NO_LABEL,
        ..Label::default()
    })
}

/// From the first header to the root's first known chunk.
fn walk(file: &[u8]) -> Option<Label> {
    let first = chunk_at(file, 0, file.len()).ok()??;
    if &first.tag != b"BB3D" {
        return None;
    }
    let inside = past(first.body, 4, first.end)?;
    let root = seek(file, inside, first.end, |chunk| &chunk.tag == b"NODE").ok()??;
    let (name, numbers) = text_then(file, root.body, 40, root.end).ok()?;
    let known = seek(file, numbers + 40, root.end, Chunk::is_known).ok()?;
    let vertices = match known {
        Some(chunk) if &chunk.tag == b"MESH" => mesh(file, &chunk)?,
        _ => 0,
    };
    Some(Label {
        number: 0,
        place: 0,
        name_place: name.place,
        name_length: name.length,
        vertices,
    })
}

/// The vertices of the first VRTS of a MESH.
fn mesh(file: &[u8], mesh: &Chunk) -> Option<usize> {
    let inside = past(mesh.body, 4, mesh.end)?;
    let vrts = seek(file, inside, mesh.end, |chunk| &chunk.tag == b"VRTS").ok()??;
    let items = past(vrts.body, 12, vrts.end)?;
    let flags = ranged(file, vrts.body, 3).ok()?;
    let sets = ranged(file, vrts.body + 4, 8).ok()?;
    let set_size = ranged(file, vrts.body + 8, 4).ok()?;
    let mut floats = 3 + sets * set_size;
    if flags & 1 != 0 {
        floats += 3;
    }
    if flags & 2 != 0 {
        floats += 4;
    }
    let (bytes, size) = (vrts.end - items, 4 * floats as usize);
    (bytes % size == 0).then_some(bytes / size)
}

/// The place behind so many bytes of fixed data, if they are there.
fn past(start: usize, size: usize, end: usize) -> Option<usize> {
    fits(start, size, end).ok()?;
    Some(start + size)
}

/// The first chunk that is wanted; none where the chunks end without it.
fn seek(
    file: &[u8],
    start: usize,
    end: usize,
    wanted: impl Fn(&Chunk) -> bool,
) -> Result<Option<Chunk>, Refusal> {
    let mut at = start;
    while let Some(chunk) = chunk_at(file, at, end)? {
        if wanted(&chunk) {
            return Ok(Some(chunk));
        }
        at = chunk.end;
    }
    Ok(None)
}
