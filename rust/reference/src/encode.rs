//! Sound tables to the bytes of the shortest file ("Writer and clearer"):
//! known chunks only, nodes as kind, KEYS, ANIM, children.

use crate::layout::{key_cells, vertex_cells};
use crate::lent::Lent;
use crate::limits::*;

/// The file of sound tables.
pub fn encode(lent: &Lent) -> Vec<u8> {
    let mut encoder = Encoder {
        lent,
        bytes: Vec::new(),
        next_node: 0,
        next_list: 0,
    };
    encoder.bb3d();
    encoder.bytes
}

/// The bytes so far, and the first node and key list not yet written.
struct Encoder<'a> {
    lent: &'a Lent<'a>,
    bytes: Vec<u8>,
    next_node: usize,
    next_list: usize,
}

impl Encoder<'_> {
    fn word(&mut self, word: u32) {
        self.bytes.extend_from_slice(&word.to_le_bytes());
    }

    fn words(&mut self, words: &[u32]) {
        for &word in words {
            self.word(word);
        }
    }

    /// The words of a row at these places.
    fn cells(&mut self, row: &[u32], cells: &[usize]) {
        for &cell in cells {
            self.word(row[cell]);
        }
    }

    /// The name that a row begins with, and its zero byte.
    fn text(&mut self, row: &[u32]) {
        let name = self.lent.name(row).expect("sound tables have their names");
        self.bytes.extend_from_slice(name);
        self.bytes.push(0);
    }

    /// A chunk: tag, length, and what `inside` writes. The length is set once
    /// that is known.
    fn chunk(&mut self, tag: &[u8; 4], inside: impl FnOnce(&mut Self)) {
        self.bytes.extend_from_slice(tag);
        self.word(0);
        let body = self.bytes.len();
        inside(self);
        let length = (self.bytes.len() - body) as u32;
        self.bytes[body - 4..body].copy_from_slice(&length.to_le_bytes());
    }

    fn bb3d(&mut self) {
        self.chunk(b"BB3D", |e| {
            e.word(e.lent.version);
            if e.lent.count(TEXTURES) > 0 {
                e.texs();
            }
            if e.lent.count(BRUSHES) > 0 {
                e.brus();
            }
            if e.lent.count(NODES) > 0 {
                e.node();
            }
        });
    }

    fn texs(&mut self) {
        self.chunk(b"TEXS", |e| {
            for row in e.lent.rows(TEXTURES) {
                e.text(row);
                e.words(&row[2..9]);
            }
        });
    }

    fn brus(&mut self) {
        self.chunk(b"BRUS", |e| {
            e.word(e.lent.n_texs);
            for row in e.lent.rows(BRUSHES) {
                e.text(row);
                e.words(&row[2..9]);
                e.words(&row[9..9 + e.lent.n_texs as usize]);
            }
        });
    }

    /// The next node with all inside it.
    fn node(&mut self) {
        let number = self.next_node;
        self.next_node += 1;
        let node = self.lent.node(number);
        self.chunk(b"NODE", |e| {
            e.text(node.row);
            e.words(node.floats);
            match node.kind {
                MESH => e.mesh(node.first as usize),
                BONE => e.bone(node.first as usize, node.count as usize),
                _ => {}
            }
            while e.next_list_is_of(number) {
                e.keys();
            }
            if node.anim == 1 {
                e.chunk(b"ANIM", |e| e.words(node.anim_values));
            }
            while e.next_node_is_in(number) {
                e.node();
            }
        });
    }

    fn next_list_is_of(&self, node: usize) -> bool {
        self.next_list < self.lent.count(KEY_LISTS)
            && self.lent.key_list(self.next_list).node as usize == node
    }

    fn next_node_is_in(&self, node: usize) -> bool {
        self.next_node < self.lent.count(NODES)
            && self.lent.node(self.next_node).parent as usize == node
    }

    fn mesh(&mut self, number: usize) {
        let mesh = self.lent.mesh(number);
        self.chunk(b"MESH", |e| {
            e.word(mesh.brush);
            e.vrts(number);
            let first = mesh.first_set as usize;
            for set in first..first + mesh.triangle_sets as usize {
                e.tris(set);
            }
        });
    }

    fn vrts(&mut self, mesh: usize) {
        let mesh = self.lent.mesh(mesh);
        let cells = vertex_cells(mesh.flags, mesh.sets, mesh.set_size);
        let first = mesh.first_vertex as usize;
        self.chunk(b"VRTS", |e| {
            e.words(&[mesh.flags, mesh.sets, mesh.set_size]);
            for vertex in first..first + mesh.vertices as usize {
                e.cells(e.lent.row(VERTICES, vertex), &cells);
            }
        });
    }

    fn tris(&mut self, set: usize) {
        let set = self.lent.triangle_set(set);
        let first = set.first as usize;
        self.chunk(b"TRIS", |e| {
            e.word(set.brush);
            for triangle in first..first + set.count as usize {
                e.words(e.lent.row(TRIANGLES, triangle));
            }
        });
    }

    fn bone(&mut self, first: usize, count: usize) {
        self.chunk(b"BONE", |e| {
            for weight in first..first + count {
                e.words(e.lent.row(WEIGHTS, weight));
            }
        });
    }

    /// The next key list.
    fn keys(&mut self) {
        let list = self.lent.key_list(self.next_list);
        self.next_list += 1;
        let cells = key_cells(list.flags);
        let first = list.first as usize;
        self.chunk(b"KEYS", |e| {
            e.word(list.flags);
            for key in first..first + list.count as usize {
                e.cells(e.lent.row(KEYS, key), &cells);
            }
        });
    }
}
