//! TEXS and BRUS.

use crate::chunks::Chunk;
use crate::limits::{MOST_SLOTS, NONE};
use crate::numbers::{colours, fits, id_or_none, ranged, text_then, words};
use crate::refusal::Refusal;
use crate::scene::{Brush, Texture};
use crate::Mode;

/// Items of TEXS: text, flags, blend, 5 floats.
pub fn texs(file: &[u8], chunk: &Chunk) -> Result<Vec<Texture>, Refusal> {
    let mut textures = Vec::new();
    let mut at = chunk.body;
    while at < chunk.end {
        let (name, numbers) = text_then(file, at, 28, chunk.end)?;
        textures.push(Texture {
            name,
            numbers: words(file, numbers),
        });
        at = numbers + 28;
    }
    Ok(textures)
}

/// BRUS: n_texs, then items of text, red green blue alpha, shininess, blend, fx
/// and n_texs ids. The number is judged also when no item follows.
pub fn brus(
    mode: Mode,
    file: &[u8],
    chunk: &Chunk,
    textures: usize,
) -> Result<(u32, Vec<Brush>), Refusal> {
    fits(chunk.body, 4, chunk.end)?;
    let n_texs = ranged(file, chunk.body, MOST_SLOTS)?;
    let size = 28 + 4 * n_texs as usize;
    let mut brushes = Vec::new();
    let mut at = chunk.body + 4;
    while at < chunk.end {
        let (name, numbers) = text_then(file, at, size, chunk.end)?;
        colours(mode, file, numbers)?;
        brushes.push(Brush {
            name,
            numbers: words(file, numbers),
            slots: slots(file, numbers + 28, n_texs, textures)?,
        });
        at = numbers + size;
    }
    Ok((n_texs, brushes))
}

/// The `n_texs` texture ids from `place` on, each -1 or naming a texture; the
/// unused slots hold NONE too.
fn slots(file: &[u8], place: usize, n_texs: u32, textures: usize) -> Result<[u32; 8], Refusal> {
    let mut slots = [NONE; 8];
    for (i, slot) in slots.iter_mut().take(n_texs as usize).enumerate() {
        *slot = id_or_none(file, place + 4 * i, textures)?;
    }
    Ok(slots)
}
