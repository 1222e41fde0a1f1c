//! Files changed without regard to the outcome: some stay valid, most are
//! refused, at times for more than one fault. For comparing readers.

use crate::chunk::{Chunk, KNOWN};
use crate::colour::OUTSIDE;
use crate::damage::AIMS;
use crate::make::{unknown, Scene};
use crate::rng::Rng;

/// A file changed in one of the ways below.
pub fn changed(scene: &Scene, rng: &mut Rng) -> Vec<u8> {
    match rng.below(7) {
        0 => byte_change(&scene.file, rng),
        1 => word_change(&scene.file, rng),
        2 => marked_change(&scene.tree, rng).bytes(),
        3 => cut_and_mended(&scene.file, rng),
        4 => tree_change(&scene.tree, rng).bytes(),
        5 => inserted(&scene.tree, rng).bytes(),
        _ => two_faults(&scene.tree, rng).bytes(),
    }
}

/// One byte of the file changed.
pub fn byte_change(file: &[u8], rng: &mut Rng) -> Vec<u8> {
    let mut file = file.to_vec();
    let place = rng.below(file.len());
    file[place] = match rng.below(3) {
        0 => rng.byte(),
        1 => 0,
        _ => file[place] ^ (1 << rng.below(8)),
    };
    file
}

/// Four bytes of the file changed as one number.
pub fn word_change(file: &[u8], rng: &mut Rng) -> Vec<u8> {
    let mut file = file.to_vec();
    let place = rng.between(0, file.len() - 4);
    let old = [0, 1, 2, 3].map(|i| file[place + i]);
    let new = other_word(u32::from_le_bytes(old), rng);
    file[place..place + 4].copy_from_slice(&new.to_le_bytes());
    file
}

/// A word in place of this one: near to it, small, or at an edge.
pub fn other_word(old: u32, rng: &mut Rng) -> u32 {
    match rng.below(5) {
        0 => old.wrapping_add(1),
        1 => old.wrapping_sub(1),
        2 => rng.below(20) as u32,
        3 => rng.pick(&[0, 0x7FFF_FFFF, 0x8000_0000, 0xFFFF_FFFE, 0xFFFF_FFFF]),
        _ => rng.word(),
    }
}

/// A length, a ranged number, an id or a colour of one chunk changed.
pub fn marked_change(tree: &Chunk, rng: &mut Rng) -> Chunk {
    let mut tree = tree.clone();
    let mut spots = tree.spots();
    let spot = spots.swap_remove(rng.below(spots.len()));
    let chunk = tree.at_mut(&spot.path);
    let mut numbers: Vec<usize> = chunk.ranged.iter().map(|&(at, _)| at).collect();
    numbers.extend(chunk.ids.iter().map(|id| id.at));
    numbers.extend(&chunk.colours);
    if numbers.is_empty() || rng.percent(30) {
        let length = chunk.body_size() as u32;
        chunk.wrong_length = Some(other_word(length, rng));
        return tree;
    }
    let at = rng.pick(&numbers);
    let old = [0, 1, 2, 3].map(|i| chunk.data[at + i]);
    let new = match chunk.colours.contains(&at) && rng.percent(50) {
        true => rng.pick(&OUTSIDE),
        false => other_word(u32::from_le_bytes(old), rng),
    };
    chunk.set_word(at, new);
    tree
}

/// The file cut anywhere, with the first length mended.
pub fn cut_and_mended(file: &[u8], rng: &mut Rng) -> Vec<u8> {
    let mut file = file[..rng.between(12, file.len())].to_vec();
    let length = (file.len() - 8) as u32;
    file[4..8].copy_from_slice(&length.to_le_bytes());
    file
}

/// One chunk removed, doubled, moved, given another tag or put inside another
/// chunk; all lengths mended.
pub fn tree_change(tree: &Chunk, rng: &mut Rng) -> Chunk {
    let mut tree = tree.clone();
    let mut spots = tree.spots();
    spots.retain(|spot| !tree.at(&spot.path).chunks.is_empty());
    if spots.is_empty() {
        tree.chunks.push(Chunk::new(&rng.pick(&KNOWN)));
        return tree;
    }
    let spot = spots.swap_remove(rng.below(spots.len()));
    let chunks = &mut tree.at_mut(&spot.path).chunks;
    let step = rng.below(chunks.len());
    match rng.below(6) {
        0 => {
            chunks.remove(step);
        }
        1 => {
            let double = chunks[step].clone();
            chunks.insert(rng.between(0, chunks.len()), double);
        }
        2 => {
            let other = rng.below(chunks.len());
            chunks.swap(step, other);
        }
        3 => chunks[step].tag = rng.pick(&KNOWN),
        4 => chunks[step].tag = unknown(rng).tag,
        _ => {
            let moved = chunks.remove(step);
            match chunks.first_mut() {
                Some(first) => first.chunks.push(moved),
                None => tree.chunks.push(moved),
            }
        }
    }
    tree
}

/// A copy of one chunk put among the chunks of another, or into one that has
/// none; all lengths mended.
pub fn inserted(tree: &Chunk, rng: &mut Rng) -> Chunk {
    let mut tree = tree.clone();
    let spots = tree.spots();
    let from = &spots[rng.below(spots.len())];
    let to = &spots[rng.below(spots.len())];
    let copy = tree.at(&from.path).clone();
    let chunks = &mut tree.at_mut(&to.path).chunks;
    chunks.insert(rng.between(0, chunks.len()), copy);
    tree
}

/// Two faults at once where there is a place for both, so that the order of
/// the checks decides.
pub fn two_faults(tree: &Chunk, rng: &mut Rng) -> Chunk {
    let mut tree = tree.clone();
    for _ in 0..2 {
        let (_, make) = rng.pick(&AIMS);
        make(&mut tree, rng);
        // After a cut the marks may point past the data, so it is the last.
        if !marks_hold(&tree) {
            break;
        }
    }
    tree
}

/// Whether all marks still point into the data.
fn marks_hold(tree: &Chunk) -> bool {
    let ranged = tree.ranged.iter().all(|&(at, _)| at + 4 <= tree.data.len());
    let ids = tree.ids.iter().all(|id| id.at + 4 <= tree.data.len());
    let pieces = tree.pieces.iter().all(|&at| at < tree.data.len());
    let colours = tree.colours.iter().all(|&at| at + 4 <= tree.data.len());
    ranged && ids && colours && pieces && tree.chunks.iter().all(marks_hold)
}
