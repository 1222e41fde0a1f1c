//! Colours on and near the limits of the strict mode, and files with colours
//! outside them.

use crate::chunk::Spot;
use crate::make::Scene;
use crate::rng::Rng;
use crate::Chunk;

/// Bits of colours that pass: both zeros, the smallest numbers, and up to one.
pub const INSIDE: [u32; 8] = [
    0,
    0x8000_0000,
    1,
    0x0080_0000,
    0x3F00_0000,
    0x3F7F_FFFF,
    0x3F80_0000,
    0x3F80_0000,
];

/// Bits of colours that do not pass: the next above one, the smallest negative
/// number, others outside 0 to 1, infinite ones, and those that are no number.
pub const OUTSIDE: [u32; 12] = [
    0x3F80_0001,
    0x8000_0001,
    0xBF80_0000,
    0x4000_0000,
    0x7F7F_FFFF,
    0x7F80_0000,
    0xFF80_0000,
    0x7FC0_0000,
    0x7F80_0001,
    0xFF80_0001,
    0xFFC0_0000,
    0xFFFF_FFFF,
];

/// The scene's file with one or more colours outside, and the place of the
/// first; none if it has no colour.
pub fn outside(scene: &Scene, rng: &mut Rng) -> Option<(Vec<u8>, u32)> {
    let mut tree = scene.tree.clone();
    let mut first = usize::MAX;
    for _ in 0..rng.pick(&[1, 1, 2, 3]) {
        let spot = coloured(&tree, rng)?;
        let chunk = tree.at_mut(&spot.path);
        let at = rng.pick(&chunk.colours);
        chunk.set_word(at, rng.pick(&OUTSIDE));
        first = first.min(spot.place + 8 + at);
    }
    Some((tree.bytes(), first as u32))
}

/// The scene's file with colours outside in a chunk's last item, which is cut:
/// 5 at the item, in both modes. None if no chunk with colours has items.
pub fn outside_and_cut(scene: &Scene, rng: &mut Rng) -> Option<(Vec<u8>, u32)> {
    let mut tree = scene.tree.clone();
    let spot = coloured(&tree, rng)?;
    let chunk = tree.at_mut(&spot.path);
    let start = chunk.pieces[chunk.pieces.len() - 1];
    for at in chunk.colours.clone() {
        if at >= start {
            chunk.set_word(at, rng.pick(&OUTSIDE));
        }
    }
    chunk.data.pop();
    Some((tree.bytes(), (spot.place + 8 + start) as u32))
}

/// A chunk with colours.
fn coloured(tree: &Chunk, rng: &mut Rng) -> Option<Spot> {
    let mut spots = tree.spots();
    spots.retain(|spot| !tree.at(&spot.path).colours.is_empty());
    match spots.len() {
        0 => None,
        count => Some(spots.swap_remove(rng.below(count))),
    }
}
