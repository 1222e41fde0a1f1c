//! The generator meets all shapes that a valid file can have.

use scenes::chunk::{Chunk, KNOWN};
use scenes::damage::{bone_owner, node_vertices};
use scenes::{scene, Profile, Rng};
use std::collections::BTreeSet;

/// Calls `look` with every chunk of many scenes and how deep in nodes it is.
fn each_chunk(mut look: impl FnMut(&Chunk, usize)) {
    let mut rng = Rng::new(41);
    for _ in 0..1500 {
        let profile = Profile::any(&mut rng);
        let scene = scene(&mut rng, profile);
        for spot in scene.tree.spots() {
            look(scene.tree.at(&spot.path), spot.node_depth);
        }
    }
}

fn word(chunk: &Chunk, at: usize) -> u32 {
    u32::from_le_bytes([0, 1, 2, 3].map(|i| chunk.data[at + i]))
}

#[test]
fn splitmix_gives_its_known_numbers() {
    let mut rng = Rng::new(1_234_567);
    let numbers = [rng.bits(), rng.bits(), rng.bits()];
    let known = [
        6_457_827_717_110_365_317,
        3_203_168_211_198_807_973,
        9_817_491_932_198_370_423,
    ];
    assert_eq!(numbers, known);
}

#[test]
fn all_vertex_layouts_and_key_flags() {
    let mut layouts = BTreeSet::new();
    let mut flags = BTreeSet::new();
    each_chunk(|chunk, _| match &chunk.tag {
        b"VRTS" if chunk.pieces.len() > 1 => {
            layouts.insert([0, 4, 8].map(|at| word(chunk, at)));
        }
        b"KEYS" if chunk.pieces.len() > 1 => {
            flags.insert(word(chunk, 0));
        }
        _ => {}
    });
    assert_eq!(layouts.len(), 4 * 9 * 5);
    assert_eq!(flags.len(), 8);
}

#[test]
fn all_places_of_anim_and_all_kinds() {
    let mut met = BTreeSet::new();
    each_chunk(|chunk, depth| {
        let known = chunk.chunks.iter().filter(|inner| inner.is_known());
        let tags: Vec<&[u8; 4]> = known.map(|inner| &inner.tag).collect();
        let is_keys = |tag: Option<&&[u8; 4]>| tag == Some(&b"KEYS");
        if let Some(at) = tags.iter().position(|tag| *tag == b"ANIM") {
            let before = at > 0 && is_keys(tags.get(at - 1));
            met.insert(("ANIM", before, is_keys(tags.get(at + 1))));
        }
        if &chunk.tag == b"NODE" {
            met.insert(("root mesh", depth == 1, tags.contains(&b"MESH")));
            met.insert(("root bone", depth == 1, tags.contains(&b"BONE")));
        }
        if &chunk.tag == b"BONE" {
            met.insert(("empty bone", depth == 1, chunk.data.is_empty()));
        }
        if &chunk.tag == b"MESH" {
            met.insert(("several TRIS", true, tags.len() > 2));
        }
    });
    // The root's own BONE can name no vertex, so it is always empty.
    assert!(!met.contains(&("empty bone", true, false)));
    assert_eq!(met.len(), 4 + 4 + 4 + 3 + 2, "{met:?}");
}

#[test]
fn bones_of_each_kind_of_node() {
    let mut met = BTreeSet::new();
    let mut rng = Rng::new(42);
    for _ in 0..1500 {
        let profile = Profile::any(&mut rng);
        let scene = scene(&mut rng, profile);
        for spot in scene.tree.spots() {
            let chunk = scene.tree.at(&spot.path);
            if &chunk.tag != b"BONE" || spot.path.len() < 3 {
                continue;
            }
            let steps = bone_owner(&scene.tree, &spot.path).expect("a node above");
            let owner = scene.tree.at(&spot.path[..steps]);
            let anim = owner.chunks.iter().any(|inner| &inner.tag == b"ANIM");
            let vertices = node_vertices(owner) > 0;
            let weights = !chunk.pieces.is_empty();
            let parent = steps == spot.path.len() - 2;
            met.insert((steps == 1, anim, vertices, weights, parent));
        }
    }
    // The owner: the root with an ANIM, without one, or another node, which
    // has one; with vertices, and so with weights or none, or without; the
    // bone's parent or farther up.
    assert_eq!(met.len(), 3 * 3 * 2, "{met:?}");
}

#[test]
fn unknown_chunks_wherever_chunks_may_stand() {
    let mut met = BTreeSet::new();
    each_chunk(|chunk, _| {
        for (step, inner) in chunk.chunks.iter().enumerate() {
            if !inner.is_known() {
                let capitals = inner.tag.map(|byte| byte.to_ascii_uppercase());
                let position = match step {
                    0 => "first",
                    _ if step + 1 == chunk.chunks.len() => "last",
                    _ => "between",
                };
                let odd = inner.data.len() % 2 == 1;
                met.insert((chunk.tag, position, odd, KNOWN.contains(&capitals)));
            }
        }
    });
    assert_eq!(met.len(), 3 * 3 * 2 * 2, "{met:?}");
}

#[test]
fn empty_lists_and_names() {
    let mut met = BTreeSet::new();
    each_chunk(|chunk, depth| {
        met.insert(("depth 16", depth == 16));
        match &chunk.tag {
            b"TEXS" => met.insert(("TEXS items", !chunk.pieces.is_empty())),
            b"BRUS" if chunk.pieces.len() == 1 => met.insert(("bare n_texs", word(chunk, 0) > 0)),
            b"BRUS" => {
                for id in &chunk.ids {
                    met.insert(("layer", word(chunk, id.at) != 0xFFFF_FFFF));
                }
                met.insert(("n_texs", word(chunk, 0) == 8))
            }
            b"VRTS" => met.insert(("VRTS items", chunk.pieces.len() > 1)),
            b"TRIS" => met.insert(("TRIS items", chunk.pieces.len() > 1)),
            b"KEYS" => met.insert(("KEYS items", chunk.pieces.len() > 1)),
            b"NODE" => {
                met.insert(("high byte", chunk.data[0] > 127));
                met.insert(("name", chunk.data[0] != 0))
            }
            _ => false,
        };
    });
    assert_eq!(met.len(), 2 * 10, "{met:?}");
}
