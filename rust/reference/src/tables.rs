//! Scene to the ten tables ("The ten tables"), with refusal 10.

use crate::layout::{key_cells, vertex_cells};
use crate::limits::*;
use crate::numbers::{word, words};
use crate::refusal::{refuse, Refusal, ROWS};
use crate::scene::{Brush, Items, KeyList, Kind, Mesh, Name, Node, Scene, Texture, TriangleSet};

/// The row counts of a scene; 10 at the lowest table with more rows than the
/// limit.
pub fn limited_counts(scene: &Scene) -> Result<[usize; 10], Refusal> {
    let mut counts = [0; 10];
    counts[TEXTURES] = scene.textures.len();
    counts[BRUSHES] = scene.brushes.len();
    if let Some(root) = &scene.root {
        count_node(root, &mut counts);
    }
    match counts.iter().position(|&count| count > MOST_ROWS) {
        Some(table) => refuse(ROWS, table + 1),
        None => Ok(counts),
    }
}

/// Adds the rows of a node and of all inside it.
fn count_node(node: &Node, counts: &mut [usize; 10]) {
    counts[NODES] += 1;
    match &node.kind {
        Kind::Pivot => {}
        Kind::Mesh(mesh) => count_mesh(mesh, counts),
        Kind::Bone(weights) => counts[WEIGHTS] += weights.count,
    }
    for list in &node.key_lists {
        counts[KEY_LISTS] += 1;
        counts[KEYS] += list.items.count;
    }
    for child in &node.children {
        count_node(child, counts);
    }
}

/// Adds the rows of a mesh.
fn count_mesh(mesh: &Mesh, counts: &mut [usize; 10]) {
    counts[MESHES] += 1;
    counts[VERTICES] += mesh.vertices.items.count;
    for set in &mesh.triangle_sets {
        counts[TRIANGLE_SETS] += 1;
        counts[TRIANGLES] += set.items.count;
    }
}

/// The words of the ten tables of a scene.
pub fn fill(file: &[u8], scene: &Scene) -> [Vec<u32>; 10] {
    let mut filler = Filler {
        file,
        tables: Default::default(),
    };
    for texture in &scene.textures {
        filler.texture(texture);
    }
    for brush in &scene.brushes {
        filler.brush(brush);
    }
    if let Some(root) = &scene.root {
        filler.node(root, NONE);
    }
    filler.tables
}

/// The tables so far, rows in file order.
struct Filler<'a> {
    file: &'a [u8],
    tables: [Vec<u32>; 10],
}

impl Filler<'_> {
    /// Rows of a table so far.
    fn rows(&self, table: usize) -> u32 {
        (self.tables[table].len() / ROW_WORDS[table]) as u32
    }

    /// Adds words to the last row of a table, or begins a row.
    fn add(&mut self, table: usize, words: &[u32]) {
        self.tables[table].extend_from_slice(words);
    }

    /// Name place, name length.
    fn add_name(&mut self, table: usize, name: &Name) {
        self.add(table, &[name.place as u32, name.length as u32]);
    }

    /// Adds a row for each item: its words go to `cells`, the others hold 0.
    fn add_items(&mut self, table: usize, items: &Items, cells: &[usize]) {
        for place in items.places() {
            let mut row = vec![0; ROW_WORDS[table]];
            for (i, &cell) in cells.iter().enumerate() {
                row[cell] = word(self.file, place + 4 * i);
            }
            self.add(table, &row);
        }
    }

    /// Name, flags, blend, 5 floats.
    fn texture(&mut self, texture: &Texture) {
        self.add_name(TEXTURES, &texture.name);
        self.add(TEXTURES, &texture.numbers);
    }

    /// Name, 5 floats, blend, fx, 8 texture slots.
    fn brush(&mut self, brush: &Brush) {
        self.add_name(BRUSHES, &brush.name);
        self.add(BRUSHES, &brush.numbers);
        self.add(BRUSHES, &brush.slots);
    }

    /// The row of a node, then all inside it: kind, KEYS, children. Its last
    /// word, the nodes below it, is known when those are there.
    fn node(&mut self, node: &Node, parent: u32) {
        let number = self.rows(NODES);
        self.node_row(node, parent);
        match &node.kind {
            Kind::Pivot => {}
            Kind::Mesh(mesh) => self.mesh(mesh, number),
            Kind::Bone(weights) => self.add_items(WEIGHTS, weights, &[0, 1]),
        }
        for list in &node.key_lists {
            self.key_list(list, number);
        }
        for child in &node.children {
            self.node(child, number);
        }
        let below = self.rows(NODES) - number - 1;
        let end = (number as usize + 1) * ROW_WORDS[NODES];
        self.tables[NODES][end - 1] = below;
    }

    /// Name, parent, 10 floats, kind, first, count, ANIM present, its 3 values,
    /// nodes below (set by `node`).
    fn node_row(&mut self, node: &Node, parent: u32) {
        let kind_first_count = match &node.kind {
            Kind::Pivot => [PIVOT, 0, 0],
            Kind::Mesh(_) => [MESH, self.rows(MESHES), 1],
            Kind::Bone(weights) => [BONE, self.rows(WEIGHTS), weights.count as u32],
        };
        self.add_name(NODES, &node.name);
        self.add(NODES, &[parent]);
        self.add(NODES, &node.floats);
        self.add(NODES, &kind_first_count);
        self.add(NODES, &[node.anim.is_some() as u32]);
        self.add(NODES, &node.anim.unwrap_or([0; 3]));
        self.add(NODES, &[0]);
    }

    /// Node, brush, flags, sets, set size, first vertex, vertices, first
    /// triangle set, sets of triangles; then the vertices and triangle sets.
    fn mesh(&mut self, mesh: &Mesh, node: u32) {
        let number = self.rows(MESHES);
        let vertices = &mesh.vertices;
        let row = [
            node,
            mesh.brush,
            vertices.flags,
            vertices.sets,
            vertices.set_size,
            self.rows(VERTICES),
            vertices.items.count as u32,
            self.rows(TRIANGLE_SETS),
            mesh.triangle_sets.len() as u32,
        ];
        self.add(MESHES, &row);
        let cells = vertex_cells(vertices.flags, vertices.sets, vertices.set_size);
        self.add_items(VERTICES, &vertices.items, &cells);
        for set in &mesh.triangle_sets {
            self.triangle_set(set, number);
        }
    }

    /// Mesh, brush, first triangle, triangles; then the triangles.
    fn triangle_set(&mut self, set: &TriangleSet, mesh: u32) {
        let first = self.rows(TRIANGLES);
        let row = [mesh, set.brush, first, set.items.count as u32];
        self.add(TRIANGLE_SETS, &row);
        for place in set.items.places() {
            let ids: [u32; 3] = words(self.file, place);
            self.add(TRIANGLES, &ids);
        }
    }

    /// Node, KEYS flags, first key, keys; then the keys.
    fn key_list(&mut self, list: &KeyList, node: u32) {
        let first = self.rows(KEYS);
        let row = [node, list.flags, first, list.items.count as u32];
        self.add(KEY_LISTS, &row);
        self.add_items(KEYS, &list.items, &key_cells(list.flags));
    }
}
