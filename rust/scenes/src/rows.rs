//! Files with a given number of rows in one table, for the row limit.

use crate::chunk::Chunk;
use crate::damage::{file_of, node_of};

const MINUS_ONE: u32 = 0xFFFF_FFFF;

/// The most rows of a table.
pub const MOST_ROWS: usize = 2_097_151;

/// The most weights of one BONE that a file has room for: BB3D 12, two nodes of
/// 49, a mesh of one vertex 56, the BONE's header 8, and 8 for each. Of all
/// rows but keys a weight takes the fewest bytes, so no other table but the
/// last can pass the limit.
pub const MOST_WEIGHTS: usize = (16_777_216 - 12 - 2 * 49 - 56 - 8) / 8;

/// A file with this many rows in the table with this number (1 to 10), and as
/// few as may be in the others. A row of table 4 also takes one of 3 and 6.
pub fn file_with_rows(table: usize, rows: usize) -> Vec<u8> {
    file_with_two(table, rows, None)
}

/// The same, with one more chunk in the root: `rows` keys without parts.
pub fn file_with_rows_and_keys(table: usize, rows: usize) -> Vec<u8> {
    file_with_two(table, rows, Some(keys(rows)))
}

fn file_with_two(table: usize, rows: usize, more: Option<Chunk>) -> Vec<u8> {
    let mut root = Vec::new();
    let mut top = Vec::new();
    match table {
        1 => top.push(named_items(b"TEXS", &[], rows)),
        2 => top.push(named_items(b"BRUS", &[0], rows)),
        3 => {}
        4 => root.push(mesh(0, &[0])),
        5 => root.push(mesh(rows, &[0])),
        6 => root.push(mesh(0, &vec![0; rows])),
        7 => root.push(mesh(1, &[rows])),
        8 => root.push(mesh(1, &[0])),
        9 => root.extend(vec![keys(0); rows]),
        _ => root.push(keys(rows)),
    }
    root.extend(more);
    match table {
        3 => root.extend(vec![node_of(Vec::new()); rows - 1]),
        4 => root.extend(vec![node_of(vec![mesh(0, &[0])]); rows - 1]),
        8 => root.push(node_of(vec![bone(rows)])),
        _ => {}
    }
    top.push(node_of(root));
    file_of(top).bytes()
}

/// A file with a mesh of this many vertices with normal, colour and one set of
/// two coordinates.
pub fn file_with_colours(vertices: usize) -> Vec<u8> {
    let mut vrts = Chunk::new(b"VRTS");
    vrts.words(&[3, 1, 2]);
    for _ in 0..vertices {
        vrts.words(&[0; 6]);
        vrts.coloured(&[0x3F80_0000, 0x3F00_0000, 0, 0x3F80_0000]);
        vrts.words(&[0; 2]);
    }
    let mut tris = Chunk::new(b"TRIS");
    tris.word(MINUS_ONE);
    let mut chunk = Chunk::new(b"MESH");
    chunk.word(MINUS_ONE);
    chunk.chunks = vec![vrts, tris];
    file_of(vec![node_of(vec![chunk])]).bytes()
}

/// TEXS or BRUS: fixed data, then items without name, ids or other than zeros.
fn named_items(tag: &[u8; 4], fixed: &[u32], rows: usize) -> Chunk {
    let mut chunk = Chunk::new(tag);
    chunk.words(fixed);
    for _ in 0..rows {
        chunk.name(b"");
        chunk.words(&[0; 7]);
    }
    chunk
}

/// MESH with this many vertices, and a TRIS of each of these sizes.
pub fn mesh(vertices: usize, triangles: &[usize]) -> Chunk {
    let mut vrts = Chunk::new(b"VRTS");
    vrts.words(&vec![0; 3 + 3 * vertices]);
    let mut chunk = Chunk::new(b"MESH");
    chunk.word(MINUS_ONE);
    chunk.chunks.push(vrts);
    for &count in triangles {
        let mut tris = Chunk::new(b"TRIS");
        tris.word(MINUS_ONE);
        tris.words(&vec![0; 3 * count]);
        chunk.chunks.push(tris);
    }
    chunk
}

fn bone(weights: usize) -> Chunk {
    let mut chunk = Chunk::new(b"BONE");
    chunk.words(&vec![0; 2 * weights]);
    chunk
}

/// KEYS with flags 0.
pub fn keys(count: usize) -> Chunk {
    let mut chunk = Chunk::new(b"KEYS");
    chunk.words(&vec![0; 1 + count]);
    chunk
}
