//! The size of the shortest file with given tables ("Writer and clearer").

use crate::layout::{key_cells, vertex_cells};
use crate::lent::{Lent, NodeRow};
use crate::limits::*;

/// Bytes of a header.
const HEADER: u64 = 8;

/// BB3D with its version, TEXS and BRUS only if they have rows, and the nodes.
/// Called for tables whose rows are sound.
pub fn shortest_file(lent: &Lent) -> u64 {
    HEADER + 4 + texs(lent) + brus(lent) + nodes(lent) + key_lists(lent)
}

/// The text of a row: its bytes and the zero.
fn text(row: &[u32]) -> u64 {
    u64::from(row[1]) + 1
}

fn texs(lent: &Lent) -> u64 {
    if lent.count(TEXTURES) == 0 {
        return 0;
    }
    HEADER + lent.rows(TEXTURES).map(|row| text(row) + 28).sum::<u64>()
}

fn brus(lent: &Lent) -> u64 {
    if lent.count(BRUSHES) == 0 {
        return 0;
    }
    let numbers = 28 + 4 * u64::from(lent.n_texs);
    let items: u64 = lent.rows(BRUSHES).map(|row| text(row) + numbers).sum();
    HEADER + 4 + items
}

/// All NODE chunks with what they hold, KEYS aside.
fn nodes(lent: &Lent) -> u64 {
    (0..lent.count(NODES))
        .map(|number| node(lent, &lent.node(number)))
        .sum()
}

fn node(lent: &Lent, node: &NodeRow) -> u64 {
    let kind = match node.kind {
        MESH => mesh(lent, node.first as usize),
        BONE => HEADER + 8 * u64::from(node.count),
        _ => 0,
    };
    let anim = match node.anim {
        0 => 0,
        _ => HEADER + 12,
    };
    HEADER + text(node.row) + 40 + kind + anim
}

/// MESH with VRTS and TRIS.
fn mesh(lent: &Lent, number: usize) -> u64 {
    let mesh = lent.mesh(number);
    let vertex = 4 * vertex_cells(mesh.flags, mesh.sets, mesh.set_size).len() as u64;
    let vrts = HEADER + 12 + vertex * u64::from(mesh.vertices);
    let first = mesh.first_set as usize;
    let tris: u64 = (first..first + mesh.triangle_sets as usize)
        .map(|set| HEADER + 4 + 12 * u64::from(lent.triangle_set(set).count))
        .sum();
    HEADER + 4 + vrts + tris
}

/// All KEYS chunks.
fn key_lists(lent: &Lent) -> u64 {
    (0..lent.count(KEY_LISTS))
        .map(|number| {
            let list = lent.key_list(number);
            let key = 4 * key_cells(list.flags).len() as u64;
            HEADER + 4 + key * u64::from(list.count)
        })
        .sum()
}
