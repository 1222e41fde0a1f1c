//! The files of `samples/`, made anew.

use scenes::cal3d::Made;
use scenes::damage::file_of;
use scenes::{worked, Chunk};

const NONE: u32 = 0xFFFF_FFFF;

/// Scale and rotation of a node that is not turned.
const UPRIGHT: [f32; 7] = [1.0, 1.0, 1.0, 1.0, 0.0, 0.0, 0.0];

/// Names and bytes of all samples.
pub fn all() -> [(&'static str, Vec<u8>); 7] {
    [
        ("hall.b3d", worked::h()),
        ("table.b3d", worked::t()),
        ("kitchen.b3d", kitchen()),
        ("door.csf", door_skeleton()),
        ("lid.csf", lid_skeleton()),
        ("door.cmf", door_mesh()),
        ("curtain.cmf", curtain()),
    ]
}

/// A lid on a hinge, with names as cal3d's own saver stores them: each ends with a zero, which its length counts.
fn lid_skeleton() -> Vec<u8> {
    let mut file = b"CSF\0".to_vec();
    let mut put = |numbers: &[u32], name: &[u8]| {
        file.extend(numbers.iter().flat_map(|number| number.to_le_bytes()));
        file.extend(name);
    };
    put(&[1300, 2, 0, 0, 0], b"");
    for (name, parent, children) in [(&b"lid\0"[..], NONE, &[1][..]), (&b"hinge\0"[..], 0, &[])] {
        put(&[name.len() as u32], name);
        put(&[0; 14], b"");
        put(&[parent, 0, 0, 0, 0, children.len() as u32], b"");
        put(children, b"");
    }
    file
}

/// A cupboard with a door on a hinge, which is skinned; a worktop and a lamp.
fn kitchen() -> Vec<u8> {
    let mut hinge = node("hinge", [0.5, 0.0, 0.3]);
    hinge.chunks = vec![
        bone(&[(4, 1.0), (5, 1.0), (6, 0.75), (7, 0.75)]),
        keys(
            4,
            &[(1, &[1.0, 0.0, 0.0, 0.0]), (25, &[0.7, 0.0, 0.7, 0.0])],
        ),
        keys(1, &[(25, &[0.5, 0.0, 0.3])]),
        node("handle", [-0.4, 0.1, 0.0]),
    ];
    hinge.chunks[3].chunks = vec![bone(&[(6, 0.25), (7, 0.25)])];

    let mut worktop = node("worktop", [0.0, 0.9, 0.0]);
    worktop.chunks = vec![mesh(1, 1, 1, 4, &[(1, &[[0, 1, 2], [0, 2, 3]])])];

    let mut lamp = node("lamp over the worktop", [0.0, 2.1, 0.0]);
    lamp.chunks = vec![
        Chunk::of_bytes(*b"LITE", b"warm white, 40 W".to_vec()),
        keys(3, &[(1, &[0.0, 2.1, 0.0, 1.0, 1.0, 1.0])]),
        node("", [0.0, -0.2, 0.0]),
    ];

    let mut root = node("cupboard", [0.0, 0.0, 0.0]);
    let carcass: &[[u32; 3]] = &[[0, 1, 2], [0, 2, 3]];
    let door: &[[u32; 3]] = &[[4, 5, 6], [4, 6, 7]];
    root.chunks = vec![
        mesh(NONE, 3, 1, 8, &[(0, carcass), (2, door)]),
        anim(50, 25.0),
        hinge,
        worktop,
        lamp,
    ];
    let note = b"Kitchen 12, for the terminal by the door".to_vec();
    let note = Chunk::of_bytes(*b"NOTE", note);
    file_of(vec![note, textures(), brushes(), root]).bytes()
}

fn textures() -> Chunk {
    let mut chunk = Chunk::new(b"TEXS");
    for (name, turn) in [("oak.png", 0.0), ("tiles.png", 0.5), ("steel.png", 0.0)] {
        chunk.name(name.as_bytes());
        chunk.words(&[1, 2]);
        floats(&mut chunk, &[0.0, 0.0, 1.0, 1.0, turn]);
    }
    chunk
}

/// Brushes of two textures each.
fn brushes() -> Chunk {
    let mut chunk = Chunk::new(b"BRUS");
    chunk.word(2);
    let all = [("oak", [0, 1]), ("stone", [1, 1]), ("steel door", [2, 0])];
    for (name, ids) in all {
        chunk.name(name.as_bytes());
        floats(&mut chunk, &[1.0, 0.9, 0.8, 1.0, 0.25]);
        chunk.words(&[1, 0]);
        chunk.words(&ids);
    }
    chunk
}

fn node(name: &str, position: [f32; 3]) -> Chunk {
    let mut chunk = Chunk::new(b"NODE");
    chunk.name(name.as_bytes());
    floats(&mut chunk, &position);
    floats(&mut chunk, &UPRIGHT);
    chunk
}

/// A mesh with sets of two coordinates and these triangles for each brush.
fn mesh(brush: u32, flags: u32, sets: u32, vertices: u32, tris: &[(u32, &[[u32; 3]])]) -> Chunk {
    let mut vrts = Chunk::new(b"VRTS");
    vrts.words(&[flags, sets, 2]);
    let parts = [3, 3 * (flags & 1), 4 * (flags >> 1), 2 * sets];
    let colour = parts[0] + parts[1]..parts[0] + parts[1] + parts[2];
    for vertex in 0..vertices {
        // Colours go from 0 to 1.
        let eighths = |cell: u32| match colour.contains(&cell) {
            true => (vertex + cell) % 9,
            false => vertex + cell,
        };
        let cells = (0..parts.iter().sum()).map(|cell| eighths(cell) as f32 / 8.0);
        floats(&mut vrts, &cells.collect::<Vec<_>>());
    }
    let mut chunk = Chunk::new(b"MESH");
    chunk.word(brush);
    chunk.chunks.push(vrts);
    for (brush, ids) in tris {
        let mut set = Chunk::new(b"TRIS");
        set.word(*brush);
        set.words(ids.as_flattened());
        chunk.chunks.push(set);
    }
    chunk
}

fn bone(weights: &[(u32, f32)]) -> Chunk {
    let mut chunk = Chunk::new(b"BONE");
    for (vertex, weight) in weights {
        chunk.word(*vertex);
        floats(&mut chunk, &[*weight]);
    }
    chunk
}

fn keys(flags: u32, frames: &[(u32, &[f32])]) -> Chunk {
    let mut chunk = Chunk::new(b"KEYS");
    chunk.word(flags);
    for (frame, values) in frames {
        chunk.word(*frame);
        floats(&mut chunk, values);
    }
    chunk
}

fn anim(frames: u32, fps: f32) -> Chunk {
    let mut chunk = Chunk::new(b"ANIM");
    chunk.words(&[0, frames]);
    floats(&mut chunk, &[fps]);
    chunk
}

fn floats(chunk: &mut Chunk, values: &[f32]) {
    for value in values {
        chunk.word(value.to_bits());
    }
}

/// Name, parent, children and place under its parent of each bone of the door.
type Bone = (&'static str, u32, &'static [u32], [f32; 3]);
const DOOR: [Bone; 6] = [
    ("frame", NONE, &[1, 4], [0.0, 0.0, 0.0]),
    ("hinge", 0, &[2], [0.5, 1.0, 0.0]),
    ("leaf", 1, &[3], [-0.5, 0.0, 0.0]),
    ("handle", 2, &[], [-0.25, 0.0, 0.0625]),
    ("curtain rail", 0, &[], [0.0, 2.0, 0.125]),
    ("", NONE, &[], [0.0, 0.0, -0.5]),
];

/// Where a bone of the door stands: its place and those of all above it.
fn standing(bone: u32) -> [f32; 3] {
    let (_, parent, _, place) = DOOR[bone as usize];
    match parent {
        NONE => place,
        _ => std::array::from_fn(|axis| standing(parent)[axis] + place[axis]),
    }
}

fn bits(values: &[f32]) -> impl Iterator<Item = u32> + use<'_> {
    values.iter().map(|value| value.to_bits())
}

/// A door on a hinge, with a curtain rail over it, and a bone without a name.
fn door_skeleton() -> Vec<u8> {
    const STRAIGHT: [f32; 4] = [0.0, 0.0, 0.0, 1.0];
    let mut made = Made::new(b"CSF\0", 2);
    let mut head = vec![1300, DOOR.len() as u32];
    head.extend(bits(&[0.25, 0.25, 0.25]));
    made.item(&head);
    for (bone, (name, parent, children, place)) in DOOR.into_iter().enumerate() {
        made.item(&[name.len() as u32]);
        made.name(name.as_bytes());
        let back = standing(bone as u32).map(|value| 0.0 - value);
        let mut numbers = Vec::new();
        for values in [&place[..], &STRAIGHT, &back, &STRAIGHT] {
            numbers.extend(bits(values));
        }
        numbers.extend([parent, 0]);
        numbers.extend(bits(&[1.0, 1.0, 1.0]));
        numbers.push(children.len() as u32);
        made.item(&numbers);
        for &child in children {
            made.item(&[child]);
        }
    }
    made.file
}

/// A vertex to be: its place, the vertex that it collapses to, its influences
/// and its cloth weight.
struct Vertex<'a> {
    place: [f32; 3],
    collapse: u32,
    influences: &'a [(u32, f32)],
    cloth: f32,
}

/// Adds a submesh with a map for each vertex; its cloth weights where it has springs.
fn submesh(
    made: &mut Made,
    material: u32,
    vertices: &[Vertex],
    springs: &[([u32; 2], f32)],
    faces: &[[u32; 3]],
) {
    let collapsing = vertices.iter().filter(|vertex| vertex.collapse != NONE);
    let counts = [
        vertices.len(),
        faces.len(),
        collapsing.count(),
        springs.len(),
        1,
    ];
    let mut numbers = vec![material];
    numbers.extend(counts.map(|count| count as u32));
    made.item(&numbers);
    for vertex in vertices {
        let mut numbers: Vec<u32> = bits(&vertex.place).collect();
        numbers.extend(bits(&[0.0, 0.0, 1.0]));
        numbers.extend([vertex.collapse, u32::from(vertex.collapse != NONE)]);
        made.item(&numbers);
        let map: Vec<u32> = bits(&vertex.place[..2]).collect();
        made.item(&map);
        made.item(&[vertex.influences.len() as u32]);
        for (bone, weight) in vertex.influences {
            made.item(&[*bone, weight.to_bits()]);
        }
        if !springs.is_empty() {
            made.item(&[vertex.cloth.to_bits()]);
        }
    }
    for ([from, to], length) in springs {
        made.item(&[*from, *to, 8.0_f32.to_bits(), length.to_bits()]);
    }
    for face in faces {
        made.item(face);
    }
}

/// The vertices of a mesh without springs and without collapsing.
fn stiff<'a>(places: &[[f32; 3]], influences: &'a [(u32, f32)]) -> Vec<Vertex<'a>> {
    let stiff = |&place| Vertex {
        place,
        collapse: NONE,
        influences,
        cloth: 0.0,
    };
    places.iter().map(stiff).collect()
}

/// The door's leaf and its handle, without springs.
fn door_mesh() -> Vec<u8> {
    let mut made = Made::new(b"CMF\0", 6);
    made.item(&[700, 2]);
    let leaf = [
        [-0.5, 0.0, 0.0],
        [0.5, 0.0, 0.0],
        [0.5, 2.0, 0.0],
        [-0.5, 2.0, 0.0],
    ];
    let faces = [[0, 1, 2], [0, 2, 3]];
    submesh(&mut made, 0, &stiff(&leaf, &[(2, 1.0)]), &[], &faces);
    let handle = [
        [-0.25, 1.0, 0.0625],
        [-0.125, 1.0, 0.0625],
        [-0.25, 1.125, 0.0625],
    ];
    let handle = stiff(&handle, &[(3, 0.75), (2, 0.25)]);
    submesh(&mut made, 1, &handle, &[], &[[0, 1, 2]]);
    made.file
}

/// A curtain of two rows below its rail: the upper one hangs on the rail's bone,
/// the lower one on springs alone, and its last vertex may collapse.
fn curtain() -> Vec<u8> {
    let mut made = Made::new(b"CMF\0", 6);
    made.item(&[700, 1]);
    let vertices = [0, 1, 2, 3, 4, 5].map(|vertex| Vertex {
        place: [
            (vertex % 3) as f32 / 2.0 - 0.5,
            [2.0, 1.0][vertex / 3],
            0.125,
        ],
        collapse: if vertex == 5 { 4 } else { NONE },
        influences: if vertex < 3 { &[(4, 1.0)] } else { &[] },
        cloth: if vertex < 3 { 0.0 } else { 1.0 },
    });
    let across = [[3, 4], [4, 5]].map(|ends| (ends, 0.5));
    let down = [[0, 3], [1, 4], [2, 5]].map(|ends| (ends, 1.0));
    let springs = [&across[..], &down].concat();
    let faces = [[0, 1, 4], [0, 4, 3], [1, 2, 5], [1, 5, 4]];
    submesh(&mut made, u32::MAX, &vertices, &springs, &faces);
    made.file
}
