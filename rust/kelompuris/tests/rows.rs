//! Named fields of rows stand over the words that `include/kelompuris.h` names, and rows are as wide as it says.

use kelompuris::columns::{cal3d, TABLES};
use kelompuris::{check, Mode, Row, Scene};
use kelompuris::{
    Brush, Key, KeyList, Mesh, Node, NodeKind, Texture, Triangle, TriangleSet, Vertex, Weight,
};
use std::collections::BTreeMap;

/// The numbers of the header by their names.
fn constants() -> BTreeMap<&'static str, usize> {
    let header = include_str!("../../../include/kelompuris.h");
    let mut constants = BTreeMap::new();
    for line in header.lines() {
        let Some((name, rest)) = line.trim().split_once(" = ") else {
            continue;
        };
        let Some(name) = name.strip_prefix("KELOMPURIS_") else {
            continue;
        };
        let digits = rest.split(|letter: char| !letter.is_ascii_digit());
        if let Some(Ok(number)) = digits.map(str::parse).next() {
            constants.insert(name, number);
        }
    }
    constants
}

/// Words that tell each other apart: word `n` is `n` and a float's bits too.
fn words<const COUNT: usize>() -> [u32; COUNT] {
    std::array::from_fn(|number| number as u32)
}

fn bits<const COUNT: usize>(floats: [f32; COUNT]) -> Vec<usize> {
    floats.map(|float| float.to_bits() as usize).to_vec()
}

/// The words from a named one on.
fn from(name: &str, count: usize) -> Vec<usize> {
    let first = constants()[name];
    (first..first + count).collect()
}

#[test]
fn rows_have_the_words_of_the_header() {
    let widths = [
        ("TEXTURE_WORDS", Texture::WORDS),
        ("BRUSH_WORDS", Brush::WORDS),
        ("NODE_WORDS", Node::WORDS),
        ("MESH_WORDS", Mesh::WORDS),
        ("VERTEX_WORDS", Vertex::WORDS),
        ("TRIANGLE_SET_WORDS", TriangleSet::WORDS),
        ("TRIANGLE_WORDS", Triangle::WORDS),
        ("WEIGHT_WORDS", Weight::WORDS),
        ("KEY_LIST_WORDS", KeyList::WORDS),
        ("KEY_WORDS", Key::WORDS),
    ];
    for ((name, width), table) in widths.iter().zip(&TABLES) {
        assert_eq!(constants()[name], *width, "{name}");
        assert_eq!(table.words(), *width, "{name}");
    }
    use kelompuris::cal3d::{Bone, Face, Influence, Map, MeshVertex, Spring, Submesh};
    let widths = [
        ("CSF_BONE_WORDS", Bone::WORDS, &cal3d::SKELETON[0]),
        ("CMF_SUBMESH_WORDS", Submesh::WORDS, &cal3d::MESH[0]),
        ("CMF_VERTEX_WORDS", MeshVertex::WORDS, &cal3d::MESH[1]),
        ("CMF_MAP_WORDS", Map::WORDS, &cal3d::MESH[2]),
        ("CMF_INFLUENCE_WORDS", Influence::WORDS, &cal3d::MESH[3]),
        ("CMF_SPRING_WORDS", Spring::WORDS, &cal3d::MESH[4]),
        ("CMF_FACE_WORDS", Face::WORDS, &cal3d::MESH[5]),
    ];
    for (name, width, table) in widths {
        assert_eq!((constants()[name], table.words()), (width, width), "{name}");
    }
}

#[test]
fn fields_stand_over_their_words() {
    let all = words::<42>();
    let names: Vec<u8> = (0..100).collect();
    let texture = Texture::over(&all[..9], &names);
    assert_eq!(texture.name(), [0]);
    assert_eq!(vec![texture.flags() as usize], from("TEXTURE_FLAGS", 1));
    assert_eq!(vec![texture.blend() as usize], from("TEXTURE_BLEND", 1));
    assert_eq!(bits(texture.position()), from("TEXTURE_POSITION", 2));
    assert_eq!(bits(texture.scale()), from("TEXTURE_SCALE", 2));
    assert_eq!(bits([texture.rotation()]), from("TEXTURE_ROTATION", 1));

    let brush = Brush::over(&all[..17], &names);
    assert_eq!(bits(brush.colour()), from("BRUSH_COLOUR", 4));
    assert_eq!(bits([brush.shininess()]), from("BRUSH_SHININESS", 1));
    assert_eq!(vec![brush.blend() as usize], from("BRUSH_BLEND", 1));
    assert_eq!(vec![brush.fx() as usize], from("BRUSH_FX", 1));
    let slots: Vec<usize> = brush.textures().into_iter().flatten().collect();
    assert_eq!(slots, from("BRUSH_TEXTURES", 8));

    let mut own = words::<21>();
    own[constants()["NODE_ANIM"]] = 1;
    own[constants()["NODE_KIND"]] = 2;
    let node = Node::over(&own, &names);
    assert_eq!(vec![node.parent().unwrap()], from("NODE_PARENT", 1));
    assert_eq!(bits(node.position()), from("NODE_POSITION", 3));
    assert_eq!(bits(node.scale()), from("NODE_SCALE", 3));
    assert_eq!(bits(node.rotation()), from("NODE_ROTATION", 4));
    let (first, count) = (constants()["NODE_FIRST"], constants()["NODE_COUNT"]);
    let weights = first..first + count;
    assert_eq!(node.kind(), NodeKind::Bone { weights });
    let anim = node.anim().unwrap();
    assert_eq!(vec![anim.flags as usize], from("NODE_ANIM_FLAGS", 1));
    assert_eq!(vec![anim.frames as usize], from("NODE_ANIM_FRAMES", 1));
    assert_eq!(bits([anim.fps]), from("NODE_ANIM_FPS", 1));
    assert_eq!(vec![node.below()], from("NODE_BELOW", 1));
    own[constants()["NODE_KIND"]] = 1;
    own[constants()["NODE_ANIM"]] = 0;
    own[constants()["NODE_PARENT"]] = u32::MAX;
    let node = Node::over(&own, &names);
    assert_eq!((node.kind(), node.parent()), (NodeKind::Mesh(first), None));
    assert_eq!(node.anim(), None);

    let mesh = Mesh::over(&all[..9], &names);
    assert_eq!((mesh.node(), mesh.brush()), (0, Some(1)));
    assert_eq!((mesh.has_normals(), mesh.has_colours()), (false, true));
    assert_eq!(vec![mesh.sets()], from("MESH_SETS", 1));
    assert_eq!(vec![mesh.set_size()], from("MESH_SET_SIZE", 1));
    assert_eq!((mesh.vertices(), mesh.triangle_sets()), (5..11, 7..15));

    let vertex = Vertex::over(&all, &names);
    assert_eq!(bits(vertex.position()), from("VERTEX_POSITION", 3));
    assert_eq!(bits(vertex.normal()), from("VERTEX_NORMAL", 3));
    assert_eq!(bits(vertex.colour()), from("VERTEX_COLOUR", 4));
    let sets: Vec<usize> = (0..8)
        .flat_map(|set| bits(vertex.coordinates(set).unwrap()))
        .collect();
    assert_eq!(sets, from("VERTEX_COORDINATES", 32));
    assert_eq!(vertex.coordinates(8), None);

    let set = TriangleSet::over(&all[..4], &names);
    assert_eq!(
        (set.mesh(), set.brush(), set.triangles()),
        (0, Some(1), 2..5)
    );
    assert_eq!(Triangle::over(&all[..3], &names).vertices(), [0, 1, 2]);
    let weight = Weight::over(&all[..2], &names);
    assert_eq!((weight.vertex(), weight.weight().to_bits()), (0, 1));
    let list = KeyList::over(&all[..4], &names);
    assert_eq!((list.node(), list.flags(), list.keys()), (0, 1, 2..5));
    let key = Key::over(&all[..11], &names);
    assert_eq!(key.frame(), 0);
    assert_eq!(bits(key.position()), from("KEY_POSITION", 3));
    assert_eq!(bits(key.scale()), from("KEY_SCALE", 3));
    assert_eq!(bits(key.rotation()), from("KEY_ROTATION", 4));
}

#[test]
fn names_outside_are_empty() {
    let node = [5, 3, 0].repeat(7);
    assert_eq!(Node::over(&node, b"abcdefgh").name(), b"fgh");
    assert_eq!(Node::over(&node, b"abcdefg").name(), b"");
    assert_eq!(Node::over(&[u32::MAX; 21], b"abcdefg").name(), b"");
}

#[test]
fn rows_are_counted_and_passed() {
    let kitchen = std::fs::read("../../samples/kitchen.b3d").unwrap();
    let held = check(Mode::Strict, &kitchen).unwrap();
    let scene = Scene::read(Mode::Strict, &kitchen).unwrap();
    let lengths = [
        scene.textures().len(),
        scene.brushes().len(),
        scene.nodes().len(),
        scene.meshes().len(),
        scene.vertices().len(),
        scene.triangle_sets().len(),
        scene.triangles().len(),
        scene.weights().len(),
        scene.key_lists().len(),
        scene.keys().len(),
    ];
    assert_eq!(lengths, held.counts.map(|count| count as usize));
    let mut nodes = scene.nodes();
    assert_eq!(nodes.nth(3).unwrap().name(), b"worktop");
    assert_eq!(nodes.len(), 2);
    assert!(nodes.nth(usize::MAX).is_none());
    assert!(nodes.next().is_none());
    assert!(scene.nodes().get(6).is_none());
}

/// What is printed for whoever looks for a fault has no name in it.
#[test]
fn no_name_is_told_of_what_is_looked_into() {
    let hall = std::fs::read("../../samples/hall.b3d").unwrap();
    let scene = Scene::read(Mode::Strict, &hall).unwrap();
    let told = format!("{scene:?} {:?} {:?}", scene.nodes(), scene.nodes().next());
    assert!(told.starts_with("Scene { version: 1, n_texs: 0, textures: 0, brushes: 0, nodes: 1,"));
    assert!(
        told.contains(" Rows(1) Some(Node([20, 4, 4294967295, "),
        "{told}"
    );
    assert!(!told.contains("72, 97, 108, 108"), "{told}");
}
