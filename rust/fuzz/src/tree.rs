//! Inputs changed as trees of chunks: the lengths of all chunks around a change are right
//! again.

use crate::bones::moved;
use fuzz::chunks::of_file;
use fuzz::{pairs, Function, Input};
use scenes::change::{inserted, other_word, tree_change};
use scenes::{Chunk, Rng};

/// A change of plain bytes, which may become so many: that of the fuzzer.
pub type Change<'a> = &'a mut dyn FnMut(Vec<u8>, usize) -> Vec<u8>;

/// Another input, mostly of at most `most` bytes; `bytes` is what changes plain bytes.
pub fn changed(input: &[u8], most: usize, rng: &mut Rng, bytes: Change) -> Vec<u8> {
    if input.len() < 2 || rng.percent(30) {
        return bytes(input.to_vec(), most);
    }
    let parts = Input::of(input);
    if parts.function() != Function::Label && rng.percent(25) {
        let parameters = bytes(parts.parameters.to_vec(), 255);
        return Input {
            parameters: &parameters,
            ..parts
        }
        .bytes();
    }
    if rng.percent(5) {
        return Input {
            first: rng.byte(),
            ..parts
        }
        .bytes();
    }
    let [before, file, behind] = one_file(&parts, rng);
    let file = match of_file(file) {
        Some(tree) => changed_tree(tree, most, rng, bytes).bytes(),
        None => match rng.percent(30).then(|| moved(file, rng)).flatten() {
            Some(file) => file,
            None => bytes(file.to_vec(), most),
        },
    };
    let file = [before, &file, behind].concat();
    match parts.with_file(&file).bytes() {
        long if long.len() > most => bytes(input.to_vec(), most),
        changed => changed,
    }
}

/// The file of an input that is changed, with what stands before and behind it: of a pair
/// one of the two.
fn one_file<'a>(parts: &Input<'a>, rng: &mut Rng) -> [&'a [u8]; 3] {
    if parts.function() == Function::Compare {
        if let Some((first, second)) = pairs::split(parts.file) {
            return match rng.percent(50) {
                true => [&[], first, second],
                false => [first, second, &[]],
            };
        }
    }
    [&[], parts.file, &[]]
}

fn changed_tree(mut tree: Chunk, most: usize, rng: &mut Rng, bytes: Change) -> Chunk {
    match rng.below(8) {
        0 => tree_change(&tree, rng),
        1 => inserted(&tree, rng),
        2 | 3 => {
            let chunk = any_chunk(&mut tree, rng);
            let words = chunk.data.len() / 4;
            if words > 0 {
                // Numbers of a chunk with a name are counted from its end.
                let at = chunk.data.len() % 4 + 4 * rng.below(words);
                let old = [0, 1, 2, 3].map(|byte| chunk.data[at + byte]);
                chunk.set_word(at, other_word(u32::from_le_bytes(old), rng));
            }
            tree
        }
        4 => {
            let chunk = any_chunk(&mut tree, rng);
            let wrong = other_word(chunk.body_size() as u32, rng);
            chunk.wrong_length = Some(wrong);
            tree
        }
        _ => {
            let chunk = any_chunk(&mut tree, rng);
            let data = std::mem::take(&mut chunk.data);
            chunk.data = bytes(data, most);
            tree
        }
    }
}

fn any_chunk<'a>(tree: &'a mut Chunk, rng: &mut Rng) -> &'a mut Chunk {
    let mut spots = tree.spots();
    let spot = spots.swap_remove(rng.below(spots.len()));
    tree.at_mut(&spot.path)
}

/// The first input with a chunk of the second one's file, or a pair of both files; none
/// where a file is no tree.
pub fn crossed(one: &[u8], other: &[u8], rng: &mut Rng) -> Option<Vec<u8>> {
    let (parts, others) = (Input::of(one), Input::of(other));
    let [before, file, behind] = one_file(&parts, rng);
    let [_, other, _] = one_file(&others, rng);
    let mut tree = of_file(file)?;
    let mut taken = of_file(other)?;
    if parts.function() == Function::Compare && rng.percent(30) {
        let file = [file, other].concat();
        return Some(parts.with_file(&file).bytes());
    }
    let taken = any_chunk(&mut taken, rng).clone();
    let chunk = any_chunk(&mut tree, rng);
    match chunk.tag == taken.tag || chunk.chunks.is_empty() {
        true => *chunk = taken,
        false => {
            let at = rng.between(0, chunk.chunks.len());
            chunk.chunks.insert(at, taken);
        }
    }
    let file = [before, &tree.bytes(), behind].concat();
    Some(parts.with_file(&file).bytes())
}
