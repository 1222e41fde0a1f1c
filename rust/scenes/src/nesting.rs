//! Known chunks in any order inside one chunk, each without a fault of its own.

use crate::chunk::{Chunk, KNOWN};
use crate::damage::{file_of, node_of};

/// A file with these chunks inside a BB3D, the root NODE or its MESH.
pub struct Order {
    /// The tag of the chunk that encloses them.
    pub inside: [u8; 4],
    pub tags: Vec<[u8; 4]>,
    pub file: Vec<u8>,
    /// Where the header of the chunk that encloses them stands.
    pub head: u32,
    /// Where the header of each of them stands.
    pub places: Vec<u32>,
}

/// The tags of the chunks that hold chunks.
pub const ENCLOSING: [[u8; 4]; 3] = [*b"BB3D", *b"NODE", *b"MESH"];

const NONE: u32 = 0xFFFF_FFFF;

fn of_words(tag: [u8; 4], words: &[u32]) -> Chunk {
    let mut chunk = Chunk::new(&tag);
    chunk.words(words);
    chunk
}

/// A MESH of no brush with these chunks.
fn mesh_of(chunks: Vec<Chunk>) -> Chunk {
    let mut mesh = of_words(*b"MESH", &[NONE]);
    mesh.chunks = chunks;
    mesh
}

/// A chunk of this tag that has no fault of its own and no items.
fn plain(tag: [u8; 4]) -> Chunk {
    match &tag {
        b"BB3D" => file_of(vec![]),
        b"NODE" => node_of(vec![]),
        b"MESH" => mesh_of(vec![plain(*b"VRTS"), plain(*b"TRIS")]),
        b"VRTS" | b"ANIM" => of_words(tag, &[0; 3]),
        b"BRUS" | b"KEYS" => of_words(tag, &[0]),
        b"TRIS" => of_words(tag, &[NONE]),
        _ => Chunk::new(&tag),
    }
}

/// The file with chunks of these tags, in this order.
pub fn order(inside: [u8; 4], tags: &[[u8; 4]]) -> Order {
    let chunks: Vec<Chunk> = tags.iter().map(|&tag| plain(tag)).collect();
    let (head, mut at) = match &inside {
        b"BB3D" => (0, 12),
        b"NODE" => (12, 61),
        b"MESH" => (61, 73),
        _ => panic!("no chunks stand in {inside:?}"),
    };
    let mut places = Vec::new();
    for chunk in &chunks {
        places.push(at);
        at += chunk.bytes().len() as u32;
    }
    let tree = match &inside {
        b"BB3D" => file_of(chunks),
        b"NODE" => file_of(vec![node_of(chunks)]),
        _ => file_of(vec![node_of(vec![mesh_of(chunks)])]),
    };
    Order {
        inside,
        tags: tags.to_vec(),
        file: tree.bytes(),
        head,
        places,
    }
}

/// Every order of up to `most` chunks inside each chunk that holds chunks.
pub fn orders(most: usize) -> Vec<Order> {
    let mut all = Vec::new();
    for inside in ENCLOSING {
        let mut rows: Vec<Vec<[u8; 4]>> = vec![vec![]];
        for length in 0..=most {
            all.extend(rows.iter().map(|tags| order(inside, tags)));
            if length < most {
                rows = longer(&rows);
            }
        }
    }
    all
}

/// Each row with each tag added.
fn longer(rows: &[Vec<[u8; 4]>]) -> Vec<Vec<[u8; 4]>> {
    let add = |row: &Vec<[u8; 4]>, tag| row.iter().copied().chain([tag]).collect();
    rows.iter()
        .flat_map(|row| KNOWN.map(|tag| add(row, tag)))
        .collect()
}
