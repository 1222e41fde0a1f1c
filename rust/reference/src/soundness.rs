//! Whether a file that a mode accepts has the lent tables, name places aside
//! (12).
//! Counts against limits and slices are judged by `Lent::new`.

use crate::layout::{key_cells, vertex_cells};
use crate::lent::{Lent, MeshRow};
use crate::limits::*;
use crate::numbers::colour;
use crate::size::shortest_file;
use crate::Mode;

/// The size of the shortest file with these tables, or none if there is no
/// such file.
pub fn sound_size(mode: Mode, lent: &Lent) -> Option<usize> {
    let sound = header_numbers(lent)
        && brush_slots(lent)
        && node_order(lent)
        && node_branches(lent)
        && node_kinds(lent)
        && node_anims(lent)
        && meshes(lent)
        && triangle_sets(lent)
        && weights(lent)
        && key_lists(lent)
        && (mode == Mode::Lenient || colours(lent));
    if !sound {
        return None;
    }
    let size = shortest_file(lent);
    // The size is judged before the names are scanned, so that the scan is
    // never longer than a file.
    if size > LARGEST_FILE as u64 || !names(lent) {
        return None;
    }
    Some(size as usize)
}

/// Version 0 to 99; n_texs 0 to 8, and 0 if there is no brush.
fn header_numbers(lent: &Lent) -> bool {
    let highest_n_texs = match lent.count(BRUSHES) {
        0 => 0,
        _ => MOST_SLOTS,
    };
    lent.version <= HIGHEST_VERSION && lent.n_texs <= highest_n_texs
}

/// The first n_texs slots name textures or hold NONE, the unused hold NONE.
fn brush_slots(lent: &Lent) -> bool {
    let used = lent.n_texs as usize;
    lent.rows(BRUSHES).all(|row| {
        let (ids, unused) = row[9..17].split_at(used);
        ids.iter()
            .all(|&id| names_row_or_none(id, lent.count(TEXTURES)))
            && unused.iter().all(|&slot| slot == NONE)
    })
}

/// Red, green, blue and alpha of brushes, and of vertices (0 for those that
/// have none), lie from 0 to 1.
fn colours(lent: &Lent) -> bool {
    let pass = |cells: &[u32]| cells.iter().all(|&bits| colour(bits));
    lent.rows(BRUSHES).all(|row| pass(&row[2..6]))
        && lent.rows(VERTICES).all(|row| pass(&row[6..10]))
}

/// Row 0 is the root, with parent NONE. Each other node follows its parent
/// with only nodes inside that parent between them. At most 16 levels.
fn node_order(lent: &Lent) -> bool {
    // The last node read and the nodes around it, outermost first.
    let mut open: Vec<u32> = Vec::new();
    for number in 0..lent.count(NODES) {
        let parent = lent.node(number).parent;
        if number == 0 {
            if parent != NONE {
                return false;
            }
        } else {
            while open.last().is_some_and(|&node| node != parent) {
                open.pop();
            }
            if open.is_empty() {
                return false;
            }
        }
        open.push(number as u32);
        if open.len() > DEEPEST_NODE {
            return false;
        }
    }
    true
}

/// Each node's last word is the number of nodes below it, at all depths. Called
/// once `node_order` holds.
fn node_branches(lent: &Lent) -> bool {
    let mut below = vec![0; lent.count(NODES)];
    for number in 0..lent.count(NODES) {
        let mut above = lent.node(number).parent;
        while above != NONE {
            below[above as usize] += 1;
            above = lent.node(above as usize).parent;
        }
    }
    (0..lent.count(NODES)).all(|number| lent.node(number).branch == below[number])
}

/// Kind, first and count of each node; each mesh and weight belongs to one.
fn node_kinds(lent: &Lent) -> bool {
    let mut meshes = 0;
    let mut weights = 0;
    for number in 0..lent.count(NODES) {
        let node = lent.node(number);
        let sound = match node.kind {
            PIVOT => node.first == 0 && node.count == 0,
            MESH => node.first as usize == meshes && node.count == 1,
            BONE => takes_rows(node.first, node.count, weights, lent.count(WEIGHTS)),
            _ => false,
        };
        if !sound {
            return false;
        }
        match node.kind {
            MESH => meshes += 1,
            BONE => weights += node.count as usize,
            _ => {}
        }
    }
    meshes == lent.count(MESHES) && weights == lent.count(WEIGHTS)
}

/// ANIM present is 0, with three cells 0, or 1.
fn node_anims(lent: &Lent) -> bool {
    (0..lent.count(NODES)).all(|number| {
        let node = lent.node(number);
        match node.anim {
            0 => node.anim_values.iter().all(|&value| value == 0),
            1 => true,
            _ => false,
        }
    })
}

/// Each mesh row, its vertices and the triangle sets that it names; each
/// vertex and triangle set belongs to one mesh. Called once `node_kinds` holds,
/// so the meshes are those of the nodes of that kind, in their order.
fn meshes(lent: &Lent) -> bool {
    let owners = (0..lent.count(NODES)).filter(|&node| lent.node(node).kind == MESH);
    let mut vertices = 0;
    let mut sets = 0;
    for (number, owner) in owners.enumerate() {
        let mesh = lent.mesh(number);
        let sound = mesh.node as usize == owner
            && brush(mesh.brush, lent)
            && mesh.flags <= HIGHEST_VERTEX_FLAGS
            && mesh.sets <= MOST_SETS
            && mesh.set_size <= LARGEST_SET
            && takes_rows(
                mesh.first_vertex,
                mesh.vertices,
                vertices,
                lent.count(VERTICES),
            )
            && absent_vertex_cells(lent, &mesh)
            && mesh.triangle_sets >= 1
            && takes_rows(
                mesh.first_set,
                mesh.triangle_sets,
                sets,
                lent.count(TRIANGLE_SETS),
            );
        if !sound {
            return false;
        }
        vertices += mesh.vertices as usize;
        sets += mesh.triangle_sets as usize;
    }
    vertices == lent.count(VERTICES) && sets == lent.count(TRIANGLE_SETS)
}

/// The vertices of a mesh hold 0 in the cells that its layout leaves out.
fn absent_vertex_cells(lent: &Lent, mesh: &MeshRow) -> bool {
    let present = vertex_cells(mesh.flags, mesh.sets, mesh.set_size);
    let first = mesh.first_vertex as usize;
    (first..first + mesh.vertices as usize)
        .all(|vertex| zero_but(lent.row(VERTICES, vertex), &present))
}

/// Each triangle set row and its triangles; each triangle belongs to one set.
/// Called once `meshes` holds, so the sets are those of the meshes, in order.
fn triangle_sets(lent: &Lent) -> bool {
    let mut number = 0;
    let mut triangles = 0;
    for mesh in 0..lent.count(MESHES) {
        let owner = lent.mesh(mesh);
        for _ in 0..owner.triangle_sets {
            let set = lent.triangle_set(number);
            let sound = set.mesh as usize == mesh
                && brush(set.brush, lent)
                && takes_rows(set.first, set.count, triangles, lent.count(TRIANGLES))
                && triangle_ids(lent, triangles, set.count, owner.vertices);
            if !sound {
                return false;
            }
            number += 1;
            triangles += set.count as usize;
        }
    }
    triangles == lent.count(TRIANGLES)
}

/// The ids of `count` triangles from `first` on name vertices of their mesh.
fn triangle_ids(lent: &Lent, first: usize, count: u32, vertices: u32) -> bool {
    (first..first + count as usize).all(|triangle| {
        lent.row(TRIANGLES, triangle)
            .iter()
            .all(|&id| names_row(id, vertices as usize))
    })
}

/// Each weight names a vertex of its bone's mesh. Called once `node_order`,
/// `node_kinds` and `meshes` hold.
fn weights(lent: &Lent) -> bool {
    (0..lent.count(NODES)).all(|number| {
        let node = lent.node(number);
        if node.kind != BONE {
            return true;
        }
        let vertices = bone_vertices(lent, node.parent);
        let first = node.first as usize;
        (first..first + node.count as usize)
            .all(|weight| names_row(lent.row(WEIGHTS, weight)[0], vertices))
    })
}

/// The vertices that a bone with this parent may name: those of the mesh of the
/// nearest node from the parent up that has an ANIM, else of the root's. The
/// root's own bone has no parent and names none.
fn bone_vertices(lent: &Lent, parent: u32) -> usize {
    if parent == NONE {
        return 0;
    }
    let node = lent.node(parent as usize);
    if node.anim != 1 && node.parent != NONE {
        return bone_vertices(lent, node.parent);
    }
    match node.kind {
        MESH => lent.mesh(node.first as usize).vertices as usize,
        _ => 0,
    }
}

/// Each key list row, in the order of the nodes, and its keys; each key
/// belongs to one list.
fn key_lists(lent: &Lent) -> bool {
    let mut node = 0;
    let mut keys = 0;
    for number in 0..lent.count(KEY_LISTS) {
        let list = lent.key_list(number);
        let sound = list.node >= node
            && names_row(list.node, lent.count(NODES))
            && list.flags <= HIGHEST_KEY_FLAGS
            && takes_rows(list.first, list.count, keys, lent.count(KEYS))
            && absent_key_cells(lent, list.flags, keys, list.count);
        if !sound {
            return false;
        }
        node = list.node;
        keys += list.count as usize;
    }
    keys == lent.count(KEYS)
}

/// `count` keys from `first` on hold 0 in the cells that the flags leave out.
fn absent_key_cells(lent: &Lent, flags: u32, first: usize, count: u32) -> bool {
    let present = key_cells(flags);
    (first..first + count as usize).all(|key| zero_but(lent.row(KEYS, key), &present))
}

/// Each name lies in the lent bytes and has no zero inside.
fn names(lent: &Lent) -> bool {
    named_rows(lent).all(|row| match lent.name(row) {
        Some(name) => !name.contains(&0),
        None => false,
    })
}

/// The rows that begin with a name.
fn named_rows<'a>(lent: &'a Lent) -> impl Iterator<Item = &'a [u32]> {
    [TEXTURES, BRUSHES, NODES]
        .into_iter()
        .flat_map(|table| lent.rows(table))
}

/// `first` is the number of rows read before, and `count` more rows are there.
fn takes_rows(first: u32, count: u32, before: usize, rows: usize) -> bool {
    first as usize == before && count as usize <= rows - before
}

/// An id of one of `rows` rows. Signed, it is at least 0, as rows are few.
fn names_row(id: u32, rows: usize) -> bool {
    (id as usize) < rows
}

/// Such an id, or -1.
fn names_row_or_none(id: u32, rows: usize) -> bool {
    id == NONE || names_row(id, rows)
}

/// A brush id: -1, or the number of a brush.
fn brush(id: u32, lent: &Lent) -> bool {
    names_row_or_none(id, lent.count(BRUSHES))
}

/// All words of the row but those at the `present` places are 0.
fn zero_but(row: &[u32], present: &[usize]) -> bool {
    let mut absent = row.to_vec();
    for &cell in present {
        absent[cell] = 0;
    }
    absent.iter().all(|&word| word == 0)
}
