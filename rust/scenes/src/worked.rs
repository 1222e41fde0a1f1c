//! The worked files of paper 01, its cases of the reader and its slips that
//! look right, each with the answer that the paper gives.

use crate::chunk::Chunk;
use crate::damage::{file_of, node_of, too_large};
use crate::rows::{file_with_rows, file_with_rows_and_keys, keys, MOST_ROWS, MOST_WEIGHTS};

const NONE: u32 = 0xFFFF_FFFF;

/// The ten floats of a node: 1 to 10 as bits.
const FLOATS: [u32; 10] = [1, 2, 3, 4, 5, 6, 7, 8, 9, 10];

/// A file and its number and place.
pub struct Case {
    pub about: String,
    pub file: Vec<u8>,
    pub number: u32,
    pub place: u32,
}

/// An accepted file of version 1 without a brush, its ten counts and the size
/// of its copy.
pub struct Counted {
    pub about: &'static str,
    pub file: Vec<u8>,
    pub counts: [u32; 10],
    pub copy: usize,
}

/// Bytes of tags, texts and numbers.
#[derive(Default)]
struct Bytes(Vec<u8>);

impl Bytes {
    fn text(mut self, text: &[u8]) -> Bytes {
        self.0.extend_from_slice(text);
        self
    }

    fn word(mut self, word: u32) -> Bytes {
        self.0.extend_from_slice(&word.to_le_bytes());
        self
    }

    fn words(self, words: &[u32]) -> Bytes {
        words.iter().fold(self, |bytes, &word| bytes.word(word))
    }
}

/// 12 bytes: version 1.
pub fn p() -> Vec<u8> {
    Bytes::default().text(b"BB3D").word(4).word(1).0
}

/// One pivot "Hall".
pub fn h() -> Vec<u8> {
    let start = Bytes::default().text(b"BB3D").word(57).word(1);
    let node = start.text(b"NODE").word(45).text(b"Hall\0");
    node.words(&FLOATS).0
}

/// H cleared, by hand.
pub fn cleared_h() -> Vec<u8> {
    let start = Bytes::default().text(b"BB3D").word(53).word(1);
    start.text(b"NODE").word(41).text(b"\0").words(&FLOATS).0
}

/// H with a last chunk XTRA of 3 bytes.
pub fn h_and_unknown() -> Vec<u8> {
    let mut file = h();
    file.extend_from_slice(b"XTRA\x03\0\0\0abc");
    with(file, 4, 57 + 11)
}

/// A nameless root with a mesh of one triangle.
pub fn t() -> Vec<u8> {
    let start = Bytes::default().text(b"BB3D").word(145).word(1);
    let node = start.text(b"NODE").word(133).text(b"\0").words(&FLOATS);
    let mesh = node.text(b"MESH").word(84).word(NONE);
    let vrts = mesh.text(b"VRTS").word(48).words(&[0, 0, 0]);
    let vertices = vrts.words(&[11, 12, 13, 21, 22, 23, 31, 32, 33]);
    let tris = vertices.text(b"TRIS").word(16).word(NONE);
    tris.words(&[0, 1, 2]).0
}

/// The file with this number at this place.
pub fn with(mut file: Vec<u8>, place: usize, word: u32) -> Vec<u8> {
    file[place..place + 4].copy_from_slice(&word.to_le_bytes());
    file
}

/// Nodes inside each other.
pub fn chain(levels: usize) -> Vec<u8> {
    let nodes = (0..levels).fold(Vec::new(), |inside, _| vec![node_of(inside)]);
    file_of(nodes).bytes()
}

/// A texture and a brush that uses it `n_texs` times.
pub fn brush(n_texs: u32) -> Vec<u8> {
    layers(&vec![0; n_texs as usize])
}

/// A texture and a brush with these texture ids, the first at 92.
fn layers(ids: &[u32]) -> Vec<u8> {
    let mut texs = Chunk::new(b"TEXS");
    texs.name(b"t");
    texs.words(&[0; 7]);
    let mut brus = Chunk::new(b"BRUS");
    brus.word(ids.len() as u32);
    brus.name(b"b");
    brus.words(&[0; 7]);
    brus.words(ids);
    file_of(vec![texs, brus]).bytes()
}

/// The largest file: 16,777,216 bytes.
pub fn largest() -> Vec<u8> {
    let mut file = too_large().file;
    file.pop();
    let file = with(file, 4, 16_777_216 - 8);
    with(file, 16, 16_777_216 - 20)
}

/// A root mesh of 3 vertices, and in a child one of 1 whose triangle has
/// this id.
fn two_meshes(id: u32) -> Vec<u8> {
    let child = node_of(vec![mesh(1, &[0, 0, id])]);
    file_of(vec![node_of(vec![mesh(3, &[0, 1, 2]), child])]).bytes()
}

fn mesh(vertices: usize, ids: &[u32]) -> Chunk {
    let mut vrts = Chunk::new(b"VRTS");
    vrts.words(&vec![0; 3 + 3 * vertices]);
    let mut tris = Chunk::new(b"TRIS");
    tris.word(NONE);
    tris.words(ids);
    let mut mesh = Chunk::new(b"MESH");
    mesh.word(NONE);
    mesh.chunks = vec![vrts, tris];
    mesh
}

fn anim() -> Chunk {
    Chunk::of_bytes(*b"ANIM", vec![0; 12])
}

/// A node with a bone that names this vertex.
fn bone(id: u32) -> Chunk {
    let mut bone = Chunk::new(b"BONE");
    bone.words(&[id, 0]);
    node_of(vec![bone])
}

/// A room with a mesh of one vertex and an ANIM; in it a door with a mesh of
/// two, these chunks and a bone; beside the door another bone.
fn door(moves: Vec<Chunk>, below: u32, beside: Option<u32>) -> Vec<u8> {
    let mut inside = vec![mesh(2, &[])];
    inside.extend(moves);
    inside.push(bone(below));
    let mut room = vec![mesh(1, &[]), anim(), node_of(inside)];
    room.extend(beside.map(bone));
    file_of(vec![node_of(room)]).bytes()
}

/// A root with a mesh of so many vertices and no ANIM, in it a node with these
/// chunks.
fn below_still_root(vertices: usize, chunks: Vec<Chunk>) -> Vec<u8> {
    file_of(vec![node_of(vec![mesh(vertices, &[]), node_of(chunks)])]).bytes()
}

/// A bone below a mesh of three vertices, below one of two with an ANIM.
fn two_levels_up(id: u32) -> Vec<u8> {
    let between = node_of(vec![mesh(3, &[]), bone(id)]);
    below_still_root(1, vec![mesh(2, &[]), anim(), between])
}

/// T with one more id in its TRIS.
fn cut_item() -> Vec<u8> {
    let mut file = t();
    file.extend_from_slice(&[0; 4]);
    let mended = [(4, 149), (16, 137), (65, 88), (129 + 4, 20)];
    let set = |file, (place, length)| with(file, place, length);
    mended.into_iter().fold(file, set)
}

/// T without TRIS.
fn no_tris() -> Vec<u8> {
    let mended = [(4, 145 - 24), (16, 133 - 24), (65, 84 - 24)];
    let set = |file, (place, length)| with(file, place, length);
    mended.into_iter().fold(t()[..129].to_vec(), set)
}

/// An unknown chunk whose place and length add up to 16 in 32 bits.
fn wrapped_length() -> Vec<u8> {
    let mut chunk = Chunk::of_bytes(*b"XTRA", vec![0; 8]);
    chunk.wrong_length = Some(0xFFFF_FFFC);
    file_of(vec![chunk]).bytes()
}

/// An unknown chunk of odd length before the root.
fn odd_length() -> Vec<u8> {
    let chunk = Chunk::of_bytes(*b"XTRA", vec![0; 3]);
    file_of(vec![chunk, node_of(Vec::new())]).bytes()
}

/// Cleared H with five zero bytes added.
fn spare_bytes() -> Vec<u8> {
    let mut file = cleared_h();
    file.extend_from_slice(&[0; 5]);
    with(file, 4, 58)
}

/// More keys than the limit, then a child without any data. The keys stand
/// from 73 on, the child behind them.
fn keys_then_cut_node() -> Vec<u8> {
    file_of(vec![node_of(vec![
        keys(MOST_ROWS + 1),
        Chunk::new(b"NODE"),
    ])])
    .bytes()
}

/// Files of many rows, counts and sizes made by hand. The first: a root of
/// 49 bytes behind 12, and its KEYS of 12 + 4 for each key. The second: beside
/// them a mesh of one vertex (44 + 12 bytes) and a child of 49 whose BONE has
/// 8 + 8 for each weight.
pub fn counted() -> Vec<Counted> {
    let keys = Counted {
        about: "2,097,151 keys",
        file: file_with_rows(10, 2_097_151),
        counts: [0, 0, 1, 0, 0, 0, 0, 0, 1, 2_097_151],
        copy: 73 + 2_097_151 * 4,
    };
    let weights = Counted {
        about: "16,384 weights and keys",
        file: file_with_rows_and_keys(8, 16_384),
        counts: [0, 0, 2, 1, 1, 1, 0, 16_384, 1, 16_384],
        copy: 12 + 49 + 56 + 12 + 16_384 * 4 + 49 + 8 + 16_384 * 8,
    };
    vec![keys, weights]
}

/// All cases, starred or not.
pub fn cases() -> Vec<Case> {
    let mut cases = Vec::new();
    let mut add = |about: &str, file, number, place| {
        cases.push(Case {
            about: about.to_string(),
            file,
            number,
            place,
        })
    };
    add("P", p(), 0, 0);
    add("no byte", Vec::new(), 1, 0);
    add("11 bytes", p()[..11].to_vec(), 1, 0);
    add("H", h(), 0, 0);
    add("H cleared", cleared_h(), 0, 0);
    add("H and XTRA", h_and_unknown(), 0, 0);
    add("five bytes left", spare_bytes(), 3, 61);
    add("T", t(), 0, 0);
    add("last id 3", with(t(), 149, 3), 7, 149);
    add("brush 0", with(t(), 69, 0), 7, 69);
    add("no TRIS", no_tris(), 8, 61);
    add("VRTS length 47", with(t(), 77, 47), 5, 117);
    for version in [0, 99] {
        add("version in range", with(p(), 8, version), 0, 0);
    }
    for version in [100, 101, NONE, 0x8000_0000] {
        add("version out of range", with(p(), 8, version), 6, 8);
    }
    add("16 levels", chain(16), 0, 0);
    add("17 levels", chain(17), 9, 12 + 16 * 49);
    add("n_texs 8", brush(8), 0, 0);
    add("n_texs 9", brush(9), 6, 12 + 8 + 30 + 8);
    add("empty layers", layers(&[NONE, 0, NONE]), 0, 0);
    add("texture id 1 of 1", layers(&[NONE, 1]), 7, 96);
    add("texture id -2", layers(&[0xFFFF_FFFE, NONE]), 7, 92);
    add("vertex id -1", with(t(), 145, NONE), 7, 145);
    add("largest file", largest(), 0, 0);
    add("one byte too many", too_large().file, 1, 0);
    for table in 1..=10 {
        // One more than a table could have before 02's E12.
        let about = format!("table {table}, 16,384 rows");
        add(&about, file_with_rows(table, 16_384), 0, 0);
        let two = file_with_rows_and_keys(table, 16_384);
        add(&about, two, 0, 0);
    }
    add("a lobby", file_with_rows(5, 40_000), 0, 0);
    add("2,097,151 keys", file_with_rows(10, MOST_ROWS), 0, 0);
    add("2,097,152 keys", file_with_rows(10, MOST_ROWS + 1), 10, 10);
    add("most weights", file_with_rows(8, MOST_WEIGHTS), 0, 0);
    let cut = keys_then_cut_node();
    let place = 73 + 4 * (MOST_ROWS as u32 + 1) + 8;
    add("2,097,152 keys, then a cut node", cut, 5, place);
    add("id of its own mesh", two_meshes(0), 0, 0);
    add("id of another mesh", two_meshes(1), 7, 202 + 64);
    let keys = || Chunk::of_bytes(*b"KEYS", vec![0; 4]);
    add("door", door(vec![anim()], 1, Some(0)), 0, 0);
    add("door's last id", door(vec![anim()], 2, None), 7, 331);
    add("beside it", door(vec![anim()], 1, Some(1)), 7, 396);
    add("ANIM last", door(vec![keys(), anim()], 1, None), 0, 0);
    add("ANIM first", door(vec![anim(), keys()], 1, None), 0, 0);
    add("no ANIM", door(vec![keys()], 1, None), 7, 323);
    let pivot = below_still_root(1, vec![anim(), bone(0)]);
    add("ANIM of a pivot", pivot, 7, 243);
    let empty = node_of(vec![Chunk::new(b"BONE")]);
    let pivot = below_still_root(1, vec![anim(), empty]);
    add("no weight below it", pivot, 0, 0);
    add("ANIM two levels up", two_levels_up(1), 0, 0);
    add("mesh between", two_levels_up(2), 7, 440);
    let root = below_still_root(2, vec![mesh(1, &[]), bone(1)]);
    add("root without ANIM", root, 0, 0);
    let nearest = below_still_root(1, vec![mesh(2, &[]), bone(1)]);
    add("nearest mesh", nearest, 7, 291);
    let own = || Chunk::of_bytes(*b"BONE", vec![0; 8]);
    add("own ANIM", below_still_root(1, vec![own(), anim()]), 0, 0);
    let below = below_still_root(1, vec![own(), anim(), bone(0)]);
    add("below it", below, 7, 259);
    add("cut item", cut_item(), 5, 153);
    add("odd length", odd_length(), 0, 0);
    add("wrapped length", wrapped_length(), 3, 12);
    cases
}
