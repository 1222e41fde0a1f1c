//! Files that differ only in what is private: names, passed-over chunks, where
//! ANIM stands among KEYS, TEXS without items, BRUS without items and its
//! n_texs. A clearer makes the same copy of them.

use crate::chunk::Chunk;
use crate::make::{name, unknown};
use crate::rng::Rng;

/// Changes one private thing wherever the chunks of a valid file have it.
pub type Change = fn(&mut Chunk, &mut Rng);

/// The private things.
pub const KINDS: [(&str, Change); 6] = [
    ("names", names),
    ("passed-over chunks", passed_over),
    ("where ANIM stands among KEYS", place_of_anim),
    ("TEXS without items", empty_texs),
    ("BRUS without items", empty_brus),
    ("n_texs of BRUS without items", bare_n_texs),
];

/// A file with other private parts than this valid one.
pub fn private_change(tree: &Chunk, rng: &mut Rng) -> Vec<u8> {
    let mut tree = tree.clone();
    for (_, change) in KINDS {
        change(&mut tree, rng);
    }
    tree.bytes()
}

/// Other names for all.
fn names(chunk: &mut Chunk, rng: &mut Rng) {
    for i in 0..chunk.names.len() {
        let at = chunk.names[i];
        let length = chunk.data[at..].iter().position(|&byte| byte == 0);
        let length = length.expect("a name ends with a zero byte");
        let new = name(rng);
        for later in &mut chunk.names[i + 1..] {
            *later = *later - length + new.len();
        }
        chunk.data.splice(at..at + length, new);
    }
    for inner in &mut chunk.chunks {
        names(inner, rng);
    }
}

/// Other unknown chunks wherever chunks may stand.
fn passed_over(chunk: &mut Chunk, rng: &mut Rng) {
    if !matches!(&chunk.tag, b"BB3D" | b"NODE" | b"MESH") {
        return;
    }
    chunk.chunks.retain(|inner| inner.is_known());
    for inner in &mut chunk.chunks {
        passed_over(inner, rng);
    }
    for _ in 0..rng.below(3) {
        let step = rng.between(0, chunk.chunks.len());
        chunk.chunks.insert(step, unknown(rng));
    }
}

/// Puts each ANIM elsewhere among the KEYS next to it.
fn place_of_anim(chunk: &mut Chunk, rng: &mut Rng) {
    let chunks = &mut chunk.chunks;
    if let Some(at) = chunks.iter().position(|inner| &inner.tag == b"ANIM") {
        let anim = chunks.remove(at);
        let is_keys = |inner: &Chunk| &inner.tag == b"KEYS";
        let step = match chunks.iter().position(is_keys) {
            Some(first) => {
                let last = chunks.iter().rposition(is_keys).unwrap_or(first);
                rng.between(first, last + 1)
            }
            None => at,
        };
        chunks.insert(step, anim);
    }
    for inner in chunks {
        place_of_anim(inner, rng);
    }
}

fn step_of(tree: &Chunk, tags: &[&[u8; 4]]) -> Option<usize> {
    let mut chunks = tree.chunks.iter();
    chunks.position(|chunk| tags.contains(&&chunk.tag))
}

/// Drops the chunk of this tag if it has no more than its fixed data; adds one
/// with this data, before those of the tags `later`, if there is none.
fn drop_or_add(tree: &mut Chunk, tag: &[u8; 4], fixed: &[u32], later: &[&[u8; 4]]) {
    match step_of(tree, &[tag]) {
        Some(step) if tree.chunks[step].data.len() == 4 * fixed.len() => {
            tree.chunks.remove(step);
        }
        Some(_) => {}
        None => {
            let step = step_of(tree, later).unwrap_or(tree.chunks.len());
            let mut chunk = Chunk::new(tag);
            chunk.words(fixed);
            tree.chunks.insert(step, chunk);
        }
    }
}

fn empty_texs(tree: &mut Chunk, _: &mut Rng) {
    drop_or_add(tree, b"TEXS", &[], &[b"BRUS", b"NODE"]);
}

fn empty_brus(tree: &mut Chunk, rng: &mut Rng) {
    let n_texs = rng.between(0, 8) as u32;
    drop_or_add(tree, b"BRUS", &[n_texs], &[b"NODE"]);
}

fn bare_n_texs(tree: &mut Chunk, rng: &mut Rng) {
    let Some(step) = step_of(tree, &[b"BRUS"]) else {
        return;
    };
    let brus = &mut tree.chunks[step];
    if brus.data.len() == 4 {
        let n_texs = usize::from(brus.data[0]) + rng.between(1, 8);
        brus.set_word(0, n_texs as u32 % 9);
    }
}
