//! Damaged tables for a writer. Some changes leave sound tables: a reader and
//! `rebuild` tell which.

use crate::change::other_word;
use crate::rng::Rng;
use crate::sheet::{Sheet, NAMED, ROW_WORDS};

/// Shows `visit` the tables with each word of each counted row changed in turn
/// in several ways.
pub fn each_cell(sheet: &Sheet, rng: &mut Rng, mut visit: impl FnMut(&Sheet)) {
    let mut changed = sheet.clone();
    for (table, words) in ROW_WORDS.iter().enumerate() {
        for cell in 0..sheet.counts[table] as usize * words {
            let old = sheet.tables[table][cell];
            for new in other_words(old, rng) {
                changed.tables[table][cell] = new;
                visit(&changed);
            }
            changed.tables[table][cell] = old;
        }
    }
}

/// Shows `visit` the tables with each count, the version and n_texs changed in
/// turn in several ways. The tables hold some rows more than are counted.
pub fn each_header_word(sheet: &Sheet, rng: &mut Rng, mut visit: impl FnMut(&Sheet)) {
    let mut longer = sheet.clone();
    for (table, words) in ROW_WORDS.iter().enumerate() {
        longer.tables[table].extend(vec![0; 2 * words]);
    }
    for start in [sheet, &longer] {
        let mut changed = start.clone();
        for table in 0..10 {
            for new in other_words(start.counts[table], rng) {
                changed.counts[table] = new;
                visit(&changed);
            }
            changed.counts[table] = start.counts[table];
        }
        for new in other_words(start.version, rng) {
            changed.version = new;
            visit(&changed);
        }
        changed.version = start.version;
        for new in other_words(start.n_texs, rng) {
            changed.n_texs = new;
            visit(&changed);
        }
    }
}

/// Words in place of this one.
fn other_words(old: u32, rng: &mut Rng) -> [u32; 8] {
    [
        0,
        1,
        !old,
        old.wrapping_add(1),
        old.wrapping_sub(1),
        0xFFFF_FFFF,
        0x8000_0000,
        other_word(old, rng),
    ]
}

/// Shows `visit` the tables with other bytes for the names: each byte made zero
/// and one more in turn, and the bytes cut or lengthened.
pub fn each_name_byte(sheet: &Sheet, mut visit: impl FnMut(&Sheet)) {
    let mut changed = sheet.clone();
    for place in 0..sheet.names.len() {
        let old = sheet.names[place];
        for new in [0, old.wrapping_add(1)] {
            changed.names[place] = new;
            visit(&changed);
        }
        changed.names[place] = old;
    }
    if let Some(last) = changed.names.pop() {
        visit(&changed);
        changed.names.extend([last, 0, 200]);
    }
    visit(&changed);
    changed.names.clear();
    visit(&changed);
}

/// Shows `visit` the tables with each slice one word shorter and one longer in
/// turn.
pub fn each_slice_length(sheet: &Sheet, mut visit: impl FnMut(&Sheet)) {
    for table in 0..10 {
        let mut changed = sheet.clone();
        changed.tables[table].push(0xFFFF_FFFF);
        visit(&changed);
        changed.tables[table].pop();
        if changed.tables[table].pop().is_some() {
            visit(&changed);
        }
    }
}

/// The tables with some change of more than one word, or none if they have no
/// place for it. The nodes below each are mostly counted again.
pub fn reshaped(sheet: &Sheet, rng: &mut Rng) -> Option<Sheet> {
    let mut changed = sheet.clone();
    let table = rng.below(10);
    let rows = sheet.counts[table] as usize;
    match rng.below(10) {
        0 => swap_rows(&mut changed, table, rng)?,
        1 => drop_row(&mut changed, table, rng.below(rows.max(1)))?,
        2 => double_row(&mut changed, table, rng.below(rows.max(1)))?,
        3 => move_boundary(&mut changed, rng)?,
        4 => move_node(&mut changed, rng)?,
        5 => move_name(&mut changed, rng)?,
        6 => add_chain(&mut changed, rng)?,
        7 => drop_last_set(&mut changed)?,
        8 => add_bone(&mut changed, rng)?,
        _ => two_words(&mut changed, rng)?,
    }
    if rng.percent(80) {
        changed.count_branches();
    }
    Some(changed)
}

fn swap_rows(sheet: &mut Sheet, table: usize, rng: &mut Rng) -> Option<()> {
    let rows = sheet.counts[table] as usize;
    if rows < 2 {
        return None;
    }
    let (one, other) = (rng.below(rows), rng.below(rows));
    for word in 0..ROW_WORDS[table] {
        let words = ROW_WORDS[table];
        sheet.tables[table].swap(one * words + word, other * words + word);
    }
    Some(())
}

fn drop_row(sheet: &mut Sheet, table: usize, row: usize) -> Option<()> {
    let words = ROW_WORDS[table];
    sheet.counts[table] = sheet.counts[table].checked_sub(1)?;
    sheet.tables[table].drain(row * words..(row + 1) * words);
    Some(())
}

fn double_row(sheet: &mut Sheet, table: usize, row: usize) -> Option<()> {
    if sheet.counts[table] == 0 {
        return None;
    }
    let double = sheet.row(table, row).to_vec();
    sheet.tables[table].extend(double);
    sheet.counts[table] += 1;
    Some(())
}

/// Moves rows from one list to the next: vertices of meshes, sets of meshes,
/// triangles of sets, keys of key lists. Sound if the rows suit both.
fn move_boundary(sheet: &mut Sheet, rng: &mut Rng) -> Option<()> {
    let (table, first, count) = rng.pick(&[(3, 5, 6), (3, 7, 8), (5, 2, 3), (8, 2, 3)]);
    let rows = sheet.counts[table] as usize;
    if rows < 2 {
        return None;
    }
    let row = rng.below(rows - 1);
    let moved = rng.pick(&[1, 0xFFFF_FFFF]);
    let one = sheet.row_mut(table, row);
    one[count] = one[count].wrapping_add(moved);
    let next = sheet.row_mut(table, row + 1);
    next[first] = next[first].wrapping_add(moved);
    next[count] = next[count].wrapping_sub(moved);
    Some(())
}

/// Gives a node another parent among the nodes before it.
fn move_node(sheet: &mut Sheet, rng: &mut Rng) -> Option<()> {
    let rows = sheet.counts[2] as usize;
    if rows < 3 {
        return None;
    }
    let node = rng.between(1, rows - 1);
    sheet.row_mut(2, node)[2] = rng.below(node) as u32;
    Some(())
}

/// Adds pivots, each inside the one before, from the last node on. Sound to
/// level 16.
fn add_chain(sheet: &mut Sheet, rng: &mut Rng) -> Option<()> {
    for _ in 0..rng.between(1, 16) {
        let mut row = vec![0; ROW_WORDS[2]];
        row[2] = sheet.counts[2].checked_sub(1)?;
        sheet.tables[2].extend(row);
        sheet.counts[2] += 1;
    }
    Some(())
}

/// Adds a bone of one weight inside the last node or one around it. Sound if
/// the mesh that it is of has such a vertex.
fn add_bone(sheet: &mut Sheet, rng: &mut Rng) -> Option<()> {
    let mut parent = sheet.counts[2].checked_sub(1)?;
    while rng.percent(60) {
        match sheet.row(2, parent as usize)[2] {
            above if above < parent => parent = above,
            _ => break,
        }
    }
    let mut row = vec![0; ROW_WORDS[2]];
    row[2] = parent;
    row[13..16].copy_from_slice(&[2, sheet.counts[7], 1]);
    sheet.tables[2].extend(row);
    sheet.tables[7].extend([rng.below(3) as u32, 0]);
    sheet.counts[2] += 1;
    sheet.counts[7] += 1;
    Some(())
}

/// Takes the last triangle set away, with its triangles. Sound if its mesh has
/// another.
fn drop_last_set(sheet: &mut Sheet) -> Option<()> {
    let set = sheet.counts[5].checked_sub(1)?;
    let mesh = sheet.counts[3] as usize - 1;
    let triangles = sheet.row(5, set as usize)[3] as usize;
    let left = sheet.tables[6].len() - triangles * ROW_WORDS[6];
    drop_row(sheet, 5, set as usize)?;
    sheet.tables[6].truncate(left);
    sheet.counts[6] -= triangles as u32;
    sheet.row_mut(3, mesh)[8] -= 1;
    Some(())
}

/// Gives a row another name: any part of the bytes, or one at or past the end.
fn move_name(sheet: &mut Sheet, rng: &mut Rng) -> Option<()> {
    let table = rng.pick(&NAMED);
    let rows = sheet.counts[table] as usize;
    if rows == 0 {
        return None;
    }
    let size = sheet.names.len();
    let start = rng.between(0, size);
    let (place, length) = match rng.below(5) {
        0 => (size, 0),
        1 => (size + 1, 0),
        2 => (start, size - start + 1),
        3 => (0xFFFF_FFFF - rng.below(3), rng.below(5)),
        _ => (start, rng.between(0, size - start)),
    };
    let row = sheet.row_mut(table, rng.below(rows));
    row[0] = place as u32;
    row[1] = length as u32;
    Some(())
}

/// Changes two words of one row.
fn two_words(sheet: &mut Sheet, rng: &mut Rng) -> Option<()> {
    let table = rng.below(10);
    let rows = sheet.counts[table] as usize;
    if rows == 0 {
        return None;
    }
    let row = sheet.row_mut(table, rng.below(rows));
    for _ in 0..2 {
        let cell = rng.below(row.len());
        row[cell] = other_word(row[cell], rng);
    }
    Some(())
}
