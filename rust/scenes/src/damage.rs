//! Files with one fault. The number and place of the refusal follow from how
//! the fault is made: all before it is valid.

use crate::chunk::{Chunk, Spot, KNOWN};
use crate::make::Scene;
use crate::rng::Rng;

/// A damaged file and the refusal that it must bring.
#[derive(Clone, Debug)]
pub struct Damaged {
    pub aim: &'static str,
    pub file: Vec<u8>,
    pub number: u32,
    pub place: u32,
}

/// Makes one fault in the chunks of a valid file and gives the refusal, or
/// none if the file has no place for this fault. Lengths are mended.
pub type Aim = fn(&mut Chunk, &mut Rng) -> Option<(u32, usize)>;

/// The faults of numbers 3 to 9.
pub const AIMS: [(&str, Aim); 18] = [
    ("spare bytes", spare_bytes),
    (
        "spare bytes in a mesh without triangles",
        spare_bytes_no_tris,
    ),
    ("length past the enclosing chunk", long_length),
    ("misplaced tag with a length past the end", long_misplaced),
    ("node 17 deep with a length past the end", long_deep),
    ("misplaced tag", misplaced),
    ("second ANIM of wrong length", second_anim),
    ("cut data or item", cut_piece),
    ("bytes after the last item", lengthened),
    ("ANIM length", anim_length),
    ("number out of range", out_of_range),
    ("id that names nothing", bad_id),
    ("negative id", negative_id),
    ("bone without vertices", bone_of_nothing),
    ("mesh without triangles", no_triangles),
    ("mesh without vertices", no_vertices),
    ("node 17 deep", too_deep),
    ("item cut after a bad number", cut_with_bad_id),
];

/// One damaged file for each fault that the scene has a place for, numbers 1
/// to 9.
pub fn aimed(scene: &Scene, rng: &mut Rng) -> Vec<Damaged> {
    let mut all = file_faults(&scene.file, rng);
    for (aim, make) in AIMS {
        let mut tree = scene.tree.clone();
        if let Some((number, place)) = make(&mut tree, rng) {
            all.push(Damaged {
                aim,
                file: tree.bytes(),
                number,
                place: place as u32,
            });
        }
    }
    all
}

/// The faults of numbers 1 and 2, made on the bytes of a valid file.
pub fn file_faults(file: &[u8], rng: &mut Rng) -> Vec<Damaged> {
    let fault = |aim, file, number, place| Damaged {
        aim,
        file,
        number,
        place,
    };
    let short = file[..rng.below(12)].to_vec();
    let mut tag = file.to_vec();
    tag[rng.below(4)] ^= rng.pick(&[0x20, 1, 0x80]);
    let mut both = tag.clone();
    both[4] ^= 1;
    let mut length = file.to_vec();
    length[rng.between(4, 7)] ^= rng.pick(&[1, 2, 0x80]);
    let mut longer = file.to_vec();
    let more = rng.between(1, 20);
    longer.extend(rng.bytes(more));
    let mut all = vec![
        fault("fewer than 12 bytes", short, 1, 0),
        fault("first tag", tag, 2, 0),
        fault("first tag and length", both, 2, 0),
        fault("first length", length, 2, 4),
        fault("bytes after the file", longer, 2, 4),
    ];
    if file.len() > 12 {
        let cut = file[..rng.between(12, file.len() - 1)].to_vec();
        all.push(fault("cut file", cut, 2, 4));
    }
    all
}

/// A file of more than 16,777,216 bytes whose lengths are right.
pub fn too_large() -> Damaged {
    let filler = Chunk::of_bytes(*b"XTRA", vec![7; 16_777_217 - 20]);
    Damaged {
        aim: "more than 16,777,216 bytes",
        file: file_of(vec![filler]).bytes(),
        number: 1,
        place: 0,
    }
}

/// A BB3D chunk of version 1 with these chunks.
pub fn file_of(chunks: Vec<Chunk>) -> Chunk {
    let mut tree = Chunk::new(b"BB3D");
    tree.begin_fixed();
    tree.ranged(1, 99);
    tree.chunks = chunks;
    tree
}

/// A NODE without a name and with these chunks.
pub fn node_of(chunks: Vec<Chunk>) -> Chunk {
    let mut node = Chunk::new(b"NODE");
    node.begin_fixed();
    node.name(b"");
    node.words(&[0; 10]);
    node.chunks = chunks;
    node
}

/// A spot of one of these tags.
fn spot_of(tree: &Chunk, rng: &mut Rng, tags: &[&[u8; 4]]) -> Option<Spot> {
    spot_where(tree, rng, |spot, _| tags.contains(&&spot.tag))
}

/// A spot that `fits`.
fn spot_where(tree: &Chunk, rng: &mut Rng, fits: impl Fn(&Spot, &Chunk) -> bool) -> Option<Spot> {
    let mut spots = tree.spots();
    spots.retain(|spot| fits(spot, tree.at(&spot.path)));
    match spots.len() {
        0 => None,
        count => Some(spots.swap_remove(rng.below(count))),
    }
}

/// The place after the data and the chunks inside.
fn inside_end(tree: &Chunk, spot: &Spot) -> usize {
    spot.end - tree.at(&spot.path).tail.len()
}

fn spare_bytes(tree: &mut Chunk, rng: &mut Rng) -> Option<(u32, usize)> {
    let spot = spot_of(tree, rng, &[b"BB3D", b"NODE", b"MESH"])?;
    let place = inside_end(tree, &spot);
    let count = rng.between(1, 7);
    tree.at_mut(&spot.path).tail = rng.bytes(count);
    Some((3, place))
}

fn spare_bytes_no_tris(tree: &mut Chunk, rng: &mut Rng) -> Option<(u32, usize)> {
    let path = spot_of(tree, rng, &[b"MESH"])?.path;
    let mesh = tree.at_mut(&path);
    mesh.chunks.retain(|chunk| &chunk.tag != b"TRIS");
    let count = rng.between(1, 7);
    mesh.tail = rng.bytes(count);
    let place = tree.place_of(&path) + tree.at(&path).size() - count;
    Some((3, place))
}

/// A length that passes the enclosing chunk: by little, by much, or such that
/// place plus length is small again in 32 bits.
fn passing_length(rng: &mut Rng, place: usize, enclosing_end: usize) -> u32 {
    let least = (enclosing_end - (place + 8) + 1) as u32;
    match rng.below(4) {
        0 => least,
        1 => least + rng.below(20) as u32,
        2 => rng.pick(&[0x7FFF_FFFF, 0x8000_0000, 0xFFFF_FFFF, 0xFFFF_FFF8]),
        _ => 0u32.wrapping_sub(rng.between(1, place + 8) as u32),
    }
}

fn long_length(tree: &mut Chunk, rng: &mut Rng) -> Option<(u32, usize)> {
    let spot = spot_where(tree, rng, |spot, _| !spot.path.is_empty())?;
    let length = passing_length(rng, spot.place, spot.enclosing_end);
    tree.at_mut(&spot.path).wrong_length = Some(length);
    Some((3, spot.place))
}

fn long_misplaced(tree: &mut Chunk, rng: &mut Rng) -> Option<(u32, usize)> {
    let path = insert_misplaced(tree, rng)?;
    Some((3, lengthen(tree, rng, &path)))
}

fn long_deep(tree: &mut Chunk, rng: &mut Rng) -> Option<(u32, usize)> {
    let path = insert_deep(tree, rng)?;
    Some((3, lengthen(tree, rng, &path)))
}

/// Gives the chunk a length past the enclosing chunk; its place.
fn lengthen(tree: &mut Chunk, rng: &mut Rng, path: &[usize]) -> usize {
    let place = tree.place_of(path);
    let around = &path[..path.len() - 1];
    let enclosing_end = tree.place_of(around) + tree.at(around).size();
    let length = passing_length(rng, place, enclosing_end);
    tree.at_mut(path).wrong_length = Some(length);
    place
}

fn misplaced(tree: &mut Chunk, rng: &mut Rng) -> Option<(u32, usize)> {
    let path = insert_misplaced(tree, rng)?;
    Some((4, tree.place_of(&path)))
}

/// Puts a known tag where it is not allowed; its path.
fn insert_misplaced(tree: &mut Chunk, rng: &mut Rng) -> Option<Vec<usize>> {
    let mut path = spot_of(tree, rng, &[b"BB3D", b"NODE", b"MESH"])?.path;
    let around = tree.at_mut(&path);
    let step = rng.between(0, around.chunks.len());
    let before: Vec<[u8; 4]> = around.chunks[..step]
        .iter()
        .filter(|chunk| chunk.is_known())
        .map(|chunk| chunk.tag)
        .collect();
    let mut tags = KNOWN.to_vec();
    tags.retain(|tag| is_misplaced(&around.tag, &before, tag));
    let tag = rng.pick(&tags);
    let length = rng.below(20);
    let chunk = Chunk::of_bytes(tag, rng.bytes(length));
    around.chunks.insert(step, chunk);
    path.push(step);
    Some(path)
}

/// Whether a chunk of this tag may not follow the known chunks `before`.
fn is_misplaced(around: &[u8; 4], before: &[[u8; 4]], tag: &[u8; 4]) -> bool {
    let seen = |tag: &[u8; 4]| before.contains(tag);
    match (around, tag) {
        (b"BB3D", b"TEXS") => !before.is_empty(),
        (b"BB3D", b"BRUS") => seen(b"BRUS") || seen(b"NODE"),
        (b"BB3D", b"NODE") => seen(b"NODE"),
        (b"NODE", b"MESH" | b"BONE") => !before.is_empty(),
        (b"NODE", b"KEYS") => seen(b"NODE"),
        (b"NODE", b"ANIM") => seen(b"NODE") || seen(b"ANIM"),
        (b"NODE", b"NODE") => false,
        (b"MESH", b"VRTS") => seen(b"VRTS"),
        (b"MESH", b"TRIS") => !seen(b"VRTS"),
        _ => true,
    }
}

fn second_anim(tree: &mut Chunk, rng: &mut Rng) -> Option<(u32, usize)> {
    let mut path = spot_of(tree, rng, &[b"ANIM"])?.path;
    let step = path.pop()? + 1;
    let length = rng.below(12);
    let second = Chunk::of_bytes(*b"ANIM", rng.bytes(length));
    tree.at_mut(&path).chunks.insert(step, second);
    path.push(step);
    Some((4, tree.place_of(&path)))
}

fn cut_piece(tree: &mut Chunk, rng: &mut Rng) -> Option<(u32, usize)> {
    let spot = spot_where(tree, rng, |spot, chunk| {
        !spot.path.is_empty() && !chunk.pieces.is_empty()
    })?;
    let chunk = tree.at_mut(&spot.path);
    let piece = rng.below(chunk.pieces.len());
    let (start, end) = (chunk.pieces[piece], chunk.piece_end(piece));
    // Without any byte, fixed data is missing, an item is just not there.
    let least = match piece == 0 && chunk.has_fixed {
        true => start,
        false => start + 1,
    };
    if least == end {
        return None;
    }
    chunk.data.truncate(rng.between(least, end - 1));
    chunk.chunks.clear();
    Some((5, spot.place + 8 + start))
}

fn cut_with_bad_id(tree: &mut Chunk, rng: &mut Rng) -> Option<(u32, usize)> {
    let spot = spot_where(tree, rng, |_, chunk| {
        chunk.pieces.len() > 1 && !chunk.ids.is_empty() && &chunk.tag != b"MESH"
    })?;
    let chunk = tree.at_mut(&spot.path);
    let start = chunk.pieces[chunk.pieces.len() - 1];
    for id in chunk.ids.clone() {
        if id.at >= start {
            chunk.set_word(id.at, 0x8000_0000);
        }
    }
    chunk.data.pop();
    Some((5, spot.place + 8 + start))
}

fn lengthened(tree: &mut Chunk, rng: &mut Rng) -> Option<(u32, usize)> {
    let spot = spot_of(
        tree,
        rng,
        &[b"TEXS", b"BRUS", b"VRTS", b"TRIS", b"BONE", b"KEYS"],
    )?;
    // One byte less than the shortest item of the chunk.
    let most = match &spot.tag {
        b"TEXS" | b"BRUS" => 28,
        b"VRTS" | b"TRIS" => 11,
        b"BONE" => 7,
        _ => 3,
    };
    let count = rng.between(1, most);
    let more = rng.bytes(count);
    tree.at_mut(&spot.path).data.extend(more);
    Some((5, spot.end))
}

fn anim_length(tree: &mut Chunk, rng: &mut Rng) -> Option<(u32, usize)> {
    let spot = spot_of(tree, rng, &[b"ANIM"])?;
    let length = rng.pick(&[0, 1, 4, 8, 11, 13, 16, 24]);
    tree.at_mut(&spot.path).data.resize(length, 9);
    Some((5, spot.place + 8))
}

fn out_of_range(tree: &mut Chunk, rng: &mut Rng) -> Option<(u32, usize)> {
    let spot = spot_where(tree, rng, |_, chunk| !chunk.ranged.is_empty())?;
    let chunk = tree.at_mut(&spot.path);
    let (at, highest) = rng.pick(&chunk.ranged);
    let value = rng.pick(&[highest + 1, 100, 0x7FFF_FFFF, 0x8000_0000, 0xFFFF_FFFF]);
    chunk.set_word(at, value);
    Some((6, spot.place + 8 + at))
}

fn bad_id(tree: &mut Chunk, rng: &mut Rng) -> Option<(u32, usize)> {
    let spot = spot_where(tree, rng, |_, chunk| !chunk.ids.is_empty())?;
    let chunk = tree.at_mut(&spot.path);
    let id = rng.pick(&chunk.ids);
    let value = rng.pick(&[id.count, id.count, id.count + 1, id.count + 2, 0x7FFF_FFFF]);
    chunk.set_word(id.at, value);
    Some((7, spot.place + 8 + id.at))
}

fn negative_id(tree: &mut Chunk, rng: &mut Rng) -> Option<(u32, usize)> {
    let spot = spot_where(tree, rng, |_, chunk| !chunk.ids.is_empty())?;
    let chunk = tree.at_mut(&spot.path);
    let id = rng.pick(&chunk.ids);
    let value = match id.minus_one {
        true => rng.pick(&[0xFFFF_FFFE, 0x8000_0000]),
        false => rng.pick(&[0xFFFF_FFFF, 0xFFFF_FFFE, 0x8000_0000]),
    };
    chunk.set_word(id.at, value);
    Some((7, spot.place + 8 + id.at))
}

/// The chunk of this tag inside another.
fn inside<'a>(chunk: &'a Chunk, tag: &[u8; 4]) -> Option<&'a Chunk> {
    chunk.chunks.iter().find(|inner| &inner.tag == tag)
}

/// The node whose mesh the BONE at this path is of, by how many steps of the
/// path lead to it: from the bone's parent up the nearest with an ANIM, else
/// the root. The root's own BONE has none.
pub fn bone_owner(tree: &Chunk, path: &[usize]) -> Option<usize> {
    // The last two steps are the bone's own node and its BONE.
    let above = 1..path.len().checked_sub(1)?;
    let has_anim = |steps: &usize| inside(tree.at(&path[..*steps]), b"ANIM").is_some();
    above.clone().rev().find(has_anim).or(above.clone().next())
}

/// Vertices of a node's MESH.
pub fn node_vertices(node: &Chunk) -> usize {
    inside(node, b"MESH")
        .and_then(|mesh| inside(mesh, b"VRTS"))
        .map_or(0, |vrts| vrts.pieces.len().saturating_sub(1))
}

/// Whether the BONE at this path may name no vertex.
fn names_nothing(tree: &Chunk, path: &[usize]) -> bool {
    match bone_owner(tree, path) {
        Some(steps) => node_vertices(tree.at(&path[..steps])) == 0,
        None => true,
    }
}

fn bone_of_nothing(tree: &mut Chunk, rng: &mut Rng) -> Option<(u32, usize)> {
    let spot = spot_where(tree, rng, |spot, _| {
        &spot.tag == b"BONE" && names_nothing(tree, &spot.path)
    })?;
    let chunk = tree.at_mut(&spot.path);
    chunk.words(&[rng.pick(&[0, 0, 1, 0xFFFF_FFFF]), 0x3F80_0000]);
    Some((7, spot.place + 8))
}

fn no_triangles(tree: &mut Chunk, rng: &mut Rng) -> Option<(u32, usize)> {
    let spot = spot_of(tree, rng, &[b"MESH"])?;
    let mesh = tree.at_mut(&spot.path);
    mesh.chunks.retain(|chunk| &chunk.tag != b"TRIS");
    Some((8, spot.place))
}

fn no_vertices(tree: &mut Chunk, rng: &mut Rng) -> Option<(u32, usize)> {
    let spot = spot_of(tree, rng, &[b"MESH"])?;
    let mesh = tree.at_mut(&spot.path);
    mesh.chunks.retain(|chunk| !chunk.is_known());
    Some((8, spot.place))
}

fn too_deep(tree: &mut Chunk, rng: &mut Rng) -> Option<(u32, usize)> {
    let path = insert_deep(tree, rng)?;
    if rng.percent(50) {
        // Its fixed data is missing, but the depth is judged first.
        tree.at_mut(&path).data.clear();
    }
    Some((9, tree.place_of(&path)))
}

/// Puts nodes into each other to level 17; the path of the last.
fn insert_deep(tree: &mut Chunk, rng: &mut Rng) -> Option<Vec<usize>> {
    let spot = spot_of(tree, rng, &[b"NODE"])?;
    let levels = 17_usize.saturating_sub(spot.node_depth);
    let mut chain = node_of(Vec::new());
    for _ in 1..levels {
        chain = node_of(vec![chain]);
    }
    let around = tree.at_mut(&spot.path);
    around.chunks.push(chain);
    let mut path = spot.path.clone();
    path.push(around.chunks.len() - 1);
    path.resize(spot.path.len() + levels, 0);
    Some(path)
}
