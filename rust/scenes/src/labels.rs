//! Files for the tray label (paper 02, E7), each with the label made by hand.
//! Some the reader refuses: the walk looks only at what it meets.

use crate::chunk::Chunk;
use crate::damage::{file_of, node_of};
use crate::rows::keys;
use crate::worked::{h, h_and_unknown, p, t, with};

const NONE: u32 = 0xFFFF_FFFF;

/// A file, and its name's place and length and its vertices; none where the
/// label is refused.
pub struct Labelled {
    pub about: &'static str,
    pub file: Vec<u8>,
    pub label: Option<(usize, usize, usize)>,
}

/// A chunk of these numbers.
fn of_words(tag: &[u8; 4], words: &[u32]) -> Chunk {
    let mut chunk = Chunk::new(tag);
    chunk.words(words);
    chunk
}

/// A VRTS with these flags, sets and set size, and so many words of items.
fn vrts(numbers: [u32; 3], words: usize) -> Chunk {
    let mut chunk = of_words(b"VRTS", &numbers);
    chunk.words(&vec![7; words]);
    chunk
}

/// A MESH without a brush, of these chunks.
fn mesh_of(chunks: Vec<Chunk>) -> Chunk {
    let mut mesh = of_words(b"MESH", &[NONE]);
    mesh.chunks = chunks;
    mesh
}

fn tris() -> Chunk {
    of_words(b"TRIS", &[NONE])
}

fn unknown() -> Chunk {
    Chunk::of_bytes(*b"XTRA", vec![1, 2, 3])
}

/// A file whose nameless root, with its name at 20, has these chunks.
fn root(chunks: Vec<Chunk>) -> Vec<u8> {
    file_of(vec![node_of(chunks)]).bytes()
}

fn root_mesh(chunks: Vec<Chunk>) -> Vec<u8> {
    root(vec![mesh_of(chunks)])
}

/// A NODE with a name.
fn named(name: &[u8]) -> Chunk {
    let mut node = Chunk::new(b"NODE");
    node.name(name);
    node.words(&[0; 10]);
    node
}

fn with_tail(mut chunk: Chunk, bytes: usize) -> Chunk {
    chunk.tail = vec![0; bytes];
    chunk
}

/// A chunk whose header says one byte more than it has.
fn too_long(mut chunk: Chunk) -> Chunk {
    chunk.wrong_length = Some(chunk.body_size() as u32 + 1);
    chunk
}

/// A chunk cut by so many bytes.
fn cut(mut chunk: Chunk, bytes: usize) -> Chunk {
    let left = chunk.data.len() - bytes;
    chunk.data.truncate(left);
    chunk
}

fn with_bytes_behind(mut file: Vec<u8>) -> Vec<u8> {
    file.extend_from_slice(&[7; 5]);
    file
}

/// The start of a file: what is met, or stands behind it.
fn starts(add: &mut impl FnMut(&'static str, Vec<u8>, Option<(usize, usize, usize)>)) {
    let hall = Some((20, 4, 0));
    add("no byte", Vec::new(), None);
    add("seven bytes", h()[..7].to_vec(), None);
    add("a header alone", h()[..8].to_vec(), None);
    add("first tag", with(h(), 0, 0), None);
    let second = [unknown().bytes(), h()].concat();
    add("BB3D not first", second, None);
    add("BB3D past the file", with(h(), 4, 58), None);
    add("bytes behind BB3D", with_bytes_behind(h()), hall);
    add("NODE past BB3D", with(h(), 4, 56), None);
    add("BB3D without version", with(h(), 4, 3), None);
    add("version out of range", with(h(), 8, 100), hall);
    let large = Chunk::of_bytes(*b"XTRA", vec![7; 16_777_216]);
    let place = 12 + large.size() + 8;
    let file = file_of(vec![large, named(b"far")]).bytes();
    add("a file over the size limit", file, Some((place, 3, 0)));
}

/// The chunks of BB3D.
fn files(add: &mut impl FnMut(&'static str, Vec<u8>, Option<(usize, usize, usize)>)) {
    let file = |chunks| file_of(chunks).bytes();
    add("no NODE", p(), None);
    add("no NODE but unknown", file(vec![unknown()]), None);
    add("H", h(), Some((20, 4, 0)));
    add("H and XTRA", h_and_unknown(), Some((20, 4, 0)));
    add("T", t(), Some((20, 0, 3)));
    let over = vec![unknown(), keys(1), tris(), named(b"Hall")];
    let place = 12 + 11 + 16 + 12 + 8;
    add("chunks before the root", file(over), Some((place, 4, 0)));
    let two = vec![named(b"one"), named(b"second")];
    add("two NODEs", file(two), Some((20, 3, 0)));
    let behind = with_tail(file_of(vec![named(b"Hall")]), 3);
    add("a cut header behind it", behind.bytes(), Some((20, 4, 0)));
    let before = with_tail(file_of(vec![unknown()]), 7);
    add("a cut header before a NODE", before.bytes(), None);
    let long = file(vec![too_long(unknown())]);
    add("a length past BB3D", long, None);
}

/// The root.
fn roots(add: &mut impl FnMut(&'static str, Vec<u8>, Option<(usize, usize, usize)>)) {
    let mesh = || mesh_of(vec![vrts([0; 3], 6), tris()]);
    let file = |node: Chunk| file_of(vec![node]).bytes();
    add("a cut number", file(cut(named(b"Hall"), 1)), None);
    add("no zero byte", file(cut(named(b"Hall"), 41)), None);
    add("no data", file(Chunk::new(b"NODE")), None);
    add("no chunk inside", root(vec![]), Some((20, 0, 0)));
    let after = vec![unknown(), mesh()];
    add("MESH after unknown", root(after), Some((20, 0, 2)));
    for first in [keys(0), Chunk::new(b"BONE"), node_of(vec![]), tris()] {
        let file = root(vec![first, mesh()]);
        add("MESH not first", file, Some((20, 0, 0)));
    }
    let spare = file(with_tail(node_of(vec![]), 7));
    add("spare bytes in the root", spare, None);
    let behind = file(with_tail(node_of(vec![keys(0)]), 7));
    add("spare bytes behind KEYS", behind, Some((20, 0, 0)));
    add("KEYS past the root", root(vec![too_long(keys(0))]), None);
    let mut empty = Chunk::new(b"MESH");
    empty.wrong_length = Some(0);
    add("MESH past the root", root(vec![too_long(mesh())]), None);
    add("MESH without brush", root(vec![empty]), None);
    let bad = with(t(), 149, 3);
    add("an id that names nothing", bad, Some((20, 0, 3)));
}

/// The mesh.
fn meshes(add: &mut impl FnMut(&'static str, Vec<u8>, Option<(usize, usize, usize)>)) {
    let some = |vertices| Some((20, 0, vertices));
    add("MESH without VRTS", root_mesh(vec![tris()]), None);
    add(
        "MESH without TRIS",
        root_mesh(vec![vrts([0; 3], 9)]),
        some(3),
    );
    let over = vec![tris(), unknown(), keys(1), vrts([0; 3], 3)];
    add("chunks before VRTS", root_mesh(over), some(1));
    let two = vec![vrts([0; 3], 12), vrts([0; 3], 3)];
    add("two VRTS", root_mesh(two), some(4));
    add(
        "VRTS past MESH",
        root_mesh(vec![too_long(vrts([0; 3], 3))]),
        None,
    );
    add(
        "spare bytes in MESH",
        root(vec![with_tail(mesh_of(vec![]), 3)]),
        None,
    );
    let behind = with_tail(mesh_of(vec![vrts([0; 3], 3)]), 3);
    add("spare bytes behind VRTS", root(vec![behind]), some(1));
    add(
        "cut VRTS numbers",
        root_mesh(vec![cut(vrts([0; 3], 0), 1)]),
        None,
    );
    for numbers in [[4, 0, 0], [0, 9, 0], [0, 0, 5], [NONE, 0, 0]] {
        let file = root_mesh(vec![vrts(numbers, 0)]);
        add("VRTS number out of range", file, None);
    }
    let full = root_mesh(vec![vrts([3, 8, 4], 84)]);
    add("two vertices of 42 words", full, some(2));
    add("no vertex", root_mesh(vec![vrts([3, 8, 4], 0)]), some(0));
    let words = root_mesh(vec![vrts([1, 1, 2], 9)]);
    add("items of 8 words in 9", words, None);
    let bytes = root_mesh(vec![cut(vrts([0; 3], 3), 1)]);
    add("a cut item", bytes, None);
}

/// All of them.
pub fn labelled() -> Vec<Labelled> {
    let mut all = Vec::new();
    let mut add = |about, file, label| all.push(Labelled { about, file, label });
    starts(&mut add);
    files(&mut add);
    roots(&mut add);
    meshes(&mut add);
    all
}
