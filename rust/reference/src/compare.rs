//! What differs between two accepted files (paper 02, E11), as a list of entries.

use crate::groups::grouped;
use crate::limits::{BRUSHES, NODES, ROW_WORDS, TEXTURES};
use crate::Accepted;

/// An accepted file: its words, and its bytes, which hold the names.
pub struct Side<'a> {
    pub words: Accepted,
    pub file: &'a [u8],
}

impl Side<'_> {
    /// Version, n_texs and the ten counts.
    fn numbers(&self) -> [u32; 12] {
        let words = &self.words;
        let mut numbers = [0; 12];
        (numbers[0], numbers[1]) = (words.version, words.n_texs);
        numbers[2..].copy_from_slice(&words.counts);
        numbers
    }

    /// The bytes of the name that a row begins with.
    fn name(&self, row: &[u32]) -> &[u8] {
        &self.file[row[0] as usize..][..row[1] as usize]
    }
}

/// The list of what differs: of the twelve numbers, and only if they agree of the
/// cells, in order of table, row and word.
pub fn list(first: &Side, second: &Side) -> Vec<u8> {
    let mut list = Vec::new();
    let (a, b) = (first.numbers(), second.numbers());
    add_cells(&mut list, [0, 0], (&a, &b), 0);
    if !list.is_empty() {
        return list;
    }
    for (table, words) in ROW_WORDS.into_iter().enumerate() {
        let (a, b) = (&first.words.tables[table], &second.words.tables[table]);
        for (row, pair) in a.chunks(words).zip(b.chunks(words)).enumerate() {
            let place = [table as u32 + 1, row as u32];
            // A name stands for its place and its length.
            let named = [TEXTURES, BRUSHES, NODES].contains(&table);
            if named {
                add_name(&mut list, place, first.name(pair.0), second.name(pair.1));
            }
            add_cells(&mut list, place, pair, if named { 2 } else { 0 });
        }
    }
    list
}

/// An entry for each word from `start` on that differs: table, row, word and both
/// cells. Floats are compared by their bits, which are the words.
fn add_cells(list: &mut Vec<u8>, [table, row]: [u32; 2], (a, b): (&[u32], &[u32]), start: usize) {
    for (word, (&old, &new)) in a.iter().zip(b).enumerate().skip(start) {
        if old != new {
            list.extend(grouped(&[table, row, word as u32, old, new]));
        }
    }
}

/// An entry for names that differ, as word 0: their lengths, then their texts.
fn add_name(list: &mut Vec<u8>, [table, row]: [u32; 2], old: &[u8], new: &[u8]) {
    if old != new {
        let lengths = [old.len() as u32, new.len() as u32];
        list.extend(grouped(&[table, row, 0, lengths[0], lengths[1]]));
        list.extend_from_slice(old);
        list.extend_from_slice(new);
    }
}
