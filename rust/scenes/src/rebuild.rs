//! A file from tables, without judging them. If an accepted file has the
//! tables, this file has them too, so reading it back tells whether tables are
//! sound. Only what would run out of the tables is given up.

use crate::chunk::Chunk;
use crate::sheet::{Sheet, ROW_WORDS};

/// The file, or none if an index or a count leads out of the tables.
pub fn rebuild(sheet: &Sheet) -> Option<Vec<u8>> {
    for (table, words) in ROW_WORDS.iter().enumerate() {
        if sheet.counts[table] as usize * words > sheet.tables[table].len() {
            return None;
        }
    }
    let mut tree = Chunk::new(b"BB3D");
    tree.word(sheet.version);
    if sheet.counts[0] > 0 {
        tree.chunks.push(texs(sheet)?);
    }
    if sheet.counts[1] > 0 {
        tree.chunks.push(brus(sheet)?);
    }
    if sheet.counts[2] > 0 {
        tree.chunks.push(node(sheet, 0, 1)?);
    }
    Some(tree.bytes())
}

/// The rows from `first` on.
fn rows(sheet: &Sheet, table: usize, first: u32, count: u32) -> Option<Vec<&[u32]>> {
    let end = u64::from(first) + u64::from(count);
    if end > u64::from(sheet.counts[table]) {
        return None;
    }
    let numbers = first as usize..end as usize;
    Some(numbers.map(|row| sheet.row(table, row)).collect())
}

fn all_rows(sheet: &Sheet, table: usize) -> Vec<&[u32]> {
    rows(sheet, table, 0, sheet.counts[table]).unwrap_or_default()
}

fn texs(sheet: &Sheet) -> Option<Chunk> {
    let mut chunk = Chunk::new(b"TEXS");
    for (number, row) in all_rows(sheet, 0).iter().enumerate() {
        chunk.name(sheet.name(0, number)?);
        chunk.words(&row[2..]);
    }
    Some(chunk)
}

fn brus(sheet: &Sheet) -> Option<Chunk> {
    let mut chunk = Chunk::new(b"BRUS");
    chunk.word(sheet.n_texs);
    for (number, row) in all_rows(sheet, 1).iter().enumerate() {
        chunk.name(sheet.name(1, number)?);
        chunk.words(&row[2..9]);
        chunk.words(row[9..].get(..sheet.n_texs as usize)?);
    }
    Some(chunk)
}

/// A node; its children are the nodes that name it as their parent.
fn node(sheet: &Sheet, number: u32, depth: usize) -> Option<Chunk> {
    if depth > 17 {
        return None;
    }
    let row = sheet.row(2, number as usize);
    let mut chunk = Chunk::new(b"NODE");
    chunk.name(sheet.name(2, number as usize)?);
    chunk.words(&row[3..13]);
    match row[13] {
        1 => chunk.chunks.push(mesh(sheet, row[14])?),
        2 => chunk.chunks.push(bone(sheet, row[14], row[15])?),
        _ => {}
    }
    for list in all_rows(sheet, 8) {
        if list[0] == number {
            chunk.chunks.push(keys(sheet, list)?);
        }
    }
    if row[16] == 1 {
        let mut anim = Chunk::new(b"ANIM");
        anim.words(&row[17..20]);
        chunk.chunks.push(anim);
    }
    for child in number + 1..sheet.counts[2] {
        if sheet.row(2, child as usize)[2] == number {
            chunk.chunks.push(node(sheet, child, depth + 1)?);
        }
    }
    Some(chunk)
}

fn mesh(sheet: &Sheet, number: u32) -> Option<Chunk> {
    let row = rows(sheet, 3, number, 1)?[0];
    let mut chunk = Chunk::new(b"MESH");
    chunk.word(row[1]);
    chunk.chunks.push(vrts(sheet, row)?);
    for set in rows(sheet, 5, row[7], row[8])? {
        let mut tris = Chunk::new(b"TRIS");
        tris.word(set[1]);
        for ids in rows(sheet, 6, set[2], set[3])? {
            tris.words(ids);
        }
        chunk.chunks.push(tris);
    }
    Some(chunk)
}

fn vrts(sheet: &Sheet, mesh: &[u32]) -> Option<Chunk> {
    let (flags, sets, set_size) = (mesh[2], mesh[3], mesh[4]);
    if sets > 8 || set_size > 4 {
        return None;
    }
    let mut chunk = Chunk::new(b"VRTS");
    chunk.words(&[flags, sets, set_size]);
    for vertex in rows(sheet, 4, mesh[5], mesh[6])? {
        chunk.words(&vertex[..3]);
        if flags % 2 == 1 {
            chunk.words(&vertex[3..6]);
        }
        if flags / 2 % 2 == 1 {
            chunk.words(&vertex[6..10]);
        }
        for set in vertex[10..].chunks(4).take(sets as usize) {
            chunk.words(&set[..set_size as usize]);
        }
    }
    Some(chunk)
}

fn bone(sheet: &Sheet, first: u32, count: u32) -> Option<Chunk> {
    let mut chunk = Chunk::new(b"BONE");
    for weight in rows(sheet, 7, first, count)? {
        chunk.words(weight);
    }
    Some(chunk)
}

fn keys(sheet: &Sheet, list: &[u32]) -> Option<Chunk> {
    let flags = list[1];
    let mut chunk = Chunk::new(b"KEYS");
    chunk.word(flags);
    for key in rows(sheet, 9, list[2], list[3])? {
        chunk.word(key[0]);
        if flags % 2 == 1 {
            chunk.words(&key[1..4]);
        }
        if flags / 2 % 2 == 1 {
            chunk.words(&key[4..7]);
        }
        if flags / 4 % 2 == 1 {
            chunk.words(&key[7..11]);
        }
    }
    Some(chunk)
}
