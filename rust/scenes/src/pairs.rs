//! Pairs of files that differ in a few cells, and the list that a comparison must
//! give: it follows from how the second file is made.

use crate::chunk::Chunk;
use crate::colour::{INSIDE, OUTSIDE};
use crate::groups;
use crate::make::{name, scene, Profile, Scene};
use crate::rebuild::rebuild;
use crate::rng::Rng;
use crate::sheet::{Sheet, NAMED};
use std::collections::BTreeMap;

const NONE: u32 = 0xFFFF_FFFF;

/// Two accepted files and the bytes of the list of what differs.
#[derive(Clone, Debug)]
pub struct Pair {
    pub first: Vec<u8>,
    pub second: Vec<u8>,
    pub list: Vec<u8>,
}

/// Table from 1, or 0 for the twelve numbers; row and word from 0.
type CellPosition = (u32, u32, u32);

/// What stands in a cell.
#[derive(Clone, Debug, PartialEq, Eq)]
enum Cell {
    Word(u32),
    Name(Vec<u8>),
}

/// A scene with up to `most` cells changed: floats, whole numbers, names. What is
/// changed may be changed again, and back. Passed-over chunks are not in the second
/// file, which has nothing to do with the list.
pub fn few_cells(rng: &mut Rng, profile: Profile, most: usize) -> Pair {
    let scene = scene(rng, profile);
    let before = scene.sheet.with_own_names();
    let mut after = before.clone();
    let mut met = BTreeMap::new();
    for _ in 0..rng.between(0, most) {
        if let Some(position) = change(&mut after, rng) {
            met.insert(position, ());
        }
    }
    let mut list = Vec::new();
    for position in met.into_keys() {
        let (old, new) = (cell(&before, position), cell(&after, position));
        add(&mut list, position, old, new);
    }
    Pair {
        first: scene.file,
        second: rebuild(&after).expect("sound tables"),
        list,
    }
}

/// Two scenes whose version, n_texs or counts differ.
pub fn other_numbers(rng: &mut Rng, profile: Profile) -> Pair {
    loop {
        let (a, b) = (scene(rng, profile), scene(rng, profile));
        let (old, new) = (numbers(&a.sheet), numbers(&b.sheet));
        if old != new {
            return pair_of(a, b, old, new);
        }
    }
}

/// Two scenes, one without a part of the other: a texture, a node, a key.
pub fn one_less(rng: &mut Rng, profile: Profile) -> Pair {
    loop {
        let a = scene(rng, profile);
        let mut sheet = a.sheet.with_own_names();
        match rng.below(3) {
            0 => sheet.version = (sheet.version + 1) % 100,
            1 if sheet.counts[8] > 0 => drop_key(&mut sheet),
            2 if sheet.counts[1] > 0 && sheet.n_texs < 8 => sheet.n_texs += 1,
            _ => continue,
        }
        let Some(file) = rebuild(&sheet) else {
            continue;
        };
        let (old, new) = (numbers(&a.sheet), numbers(&sheet));
        if old != new {
            let tree = Chunk::default();
            let b = Scene { tree, file, sheet };
            return pair_of(a, b, old, new);
        }
    }
}

fn pair_of(a: Scene, b: Scene, old: [u32; 12], new: [u32; 12]) -> Pair {
    let mut list = Vec::new();
    for (word, (&old, &new)) in old.iter().zip(&new).enumerate() {
        add(
            &mut list,
            (0, 0, word as u32),
            Cell::Word(old),
            Cell::Word(new),
        );
    }
    Pair {
        first: a.file,
        second: b.file,
        list,
    }
}

/// Takes the last key out of the last list that has any.
fn drop_key(sheet: &mut Sheet) {
    let lists = 0..sheet.counts[8] as usize;
    let Some(list) = lists.rev().find(|&list| sheet.row(8, list)[3] > 0) else {
        return;
    };
    sheet.row_mut(8, list)[3] -= 1;
    // Lists behind it have no keys: they begin where the keys end.
    for later in list + 1..sheet.counts[8] as usize {
        sheet.row_mut(8, later)[2] -= 1;
    }
    let words = sheet.tables[9].len() - 11;
    sheet.tables[9].truncate(words);
    sheet.counts[9] -= 1;
}

/// Two chunks of one tag that stand beside each other in the same chunk changed for
/// each other; the file stays accepted, with the same twelve numbers.
pub fn swapped(scene: &Scene, rng: &mut Rng) -> Option<Vec<u8>> {
    let mut tree = scene.tree.clone();
    let mut spots = tree.spots();
    let twice = |chunk: &Chunk| {
        let mut tags: Vec<[u8; 4]> = chunk.chunks.iter().map(|inner| inner.tag).collect();
        tags.sort_unstable();
        tags.windows(2).any(|two| two[0] == two[1])
    };
    spots.retain(|spot| twice(tree.at(&spot.path)));
    if spots.is_empty() {
        return None;
    }
    let path = spots.swap_remove(rng.below(spots.len())).path;
    let chunks = &mut tree.at_mut(&path).chunks;
    loop {
        let (one, other) = (rng.below(chunks.len()), rng.below(chunks.len()));
        if one != other && chunks[one].tag == chunks[other].tag {
            chunks.swap(one, other);
            return Some(tree.bytes());
        }
    }
}

/// Version, n_texs and the counts.
fn numbers(sheet: &Sheet) -> [u32; 12] {
    let mut numbers = [sheet.version, sheet.n_texs, 0, 0, 0, 0, 0, 0, 0, 0, 0, 0];
    numbers[2..].copy_from_slice(&sheet.counts);
    numbers
}

fn cell(sheet: &Sheet, (table, row, word): CellPosition) -> Cell {
    let (table, row) = (table as usize - 1, row as usize);
    match word == 0 && NAMED.contains(&table) {
        true => Cell::Name(sheet.name(table, row).expect("a name").to_vec()),
        false => Cell::Word(sheet.row(table, row)[word as usize]),
    }
}

/// Adds an entry, unless the cells are the same.
fn add(list: &mut Vec<u8>, (table, row, word): CellPosition, old: Cell, new: Cell) {
    if old == new {
        return;
    }
    for number in [table, row, word] {
        groups::put(list, number);
    }
    match (old, new) {
        (Cell::Word(old), Cell::Word(new)) => {
            groups::put(list, old);
            groups::put(list, new);
        }
        (Cell::Name(old), Cell::Name(new)) => {
            groups::put(list, old.len() as u32);
            groups::put(list, new.len() as u32);
            list.extend(old);
            list.extend(new);
        }
        _ => unreachable!("a cell stays what it is"),
    }
}

/// Changes a cell that may have another value while all else stays; its position.
fn change(sheet: &mut Sheet, rng: &mut Rng) -> Option<CellPosition> {
    let table = rng.below(10);
    let row = rng.below((sheet.counts[table] as usize).max(1));
    if row >= sheet.counts[table] as usize {
        return None;
    }
    let words = changeable(sheet, table, row);
    if words.is_empty() {
        return None;
    }
    let (word, kind) = rng.pick(&words);
    let old = sheet.row(table, row)[word];
    match kind {
        Kind::Name => {
            let name = name(rng);
            let place = sheet.names.len() as u32;
            sheet.names.extend_from_slice(&name);
            sheet.row_mut(table, row)[..2].copy_from_slice(&[place, name.len() as u32]);
        }
        Kind::Any => sheet.row_mut(table, row)[word] = rng.word(),
        Kind::Float => sheet.row_mut(table, row)[word] = other_float(old, rng),
        Kind::Id(count) => sheet.row_mut(table, row)[word] = rng.below(count as usize) as u32,
        Kind::IdOrNone(count) => {
            let id = rng.below(count as usize + 1) as u32;
            sheet.row_mut(table, row)[word] = if id == count { NONE } else { id };
        }
    }
    Some((table as u32 + 1, row as u32, word as u32))
}

/// Any bits; those of the other zero, of another value that is no number, the next.
fn other_float(old: u32, rng: &mut Rng) -> u32 {
    match rng.below(5) {
        0 => rng.float(),
        1 => old ^ 0x8000_0000,
        2 => rng.pick(&[0x7FC0_0000, 0x7FC0_0001, 0xFFC0_0000, 0x7F80_0001]),
        3 => rng.pick(&OUTSIDE),
        _ if rng.percent(50) => rng.pick(&INSIDE),
        _ => old.wrapping_add(1),
    }
}

/// What a word of a row may be changed to.
#[derive(Clone, Copy)]
enum Kind {
    Name,
    Any,
    Float,
    Id(u32),
    IdOrNone(u32),
}

/// The words of a row that are free, those of absent parts not among them.
fn changeable(sheet: &Sheet, table: usize, row: usize) -> Vec<(usize, Kind)> {
    let own = sheet.row(table, row);
    let floats = |words: std::ops::Range<usize>| words.map(|word| (word, Kind::Float));
    let mut words = Vec::new();
    if NAMED.contains(&table) {
        words.push((0, Kind::Name));
    }
    match table {
        0 => {
            words.extend([(2, Kind::Any), (3, Kind::Any)]);
            words.extend(floats(4..9));
        }
        1 => {
            words.extend(floats(2..7));
            words.extend([(7, Kind::Any), (8, Kind::Any)]);
            let slots = 9..9 + sheet.n_texs as usize;
            words.extend(slots.map(|word| (word, Kind::IdOrNone(sheet.counts[0]))));
        }
        2 => {
            words.extend(floats(3..13));
            if own[16] == 1 {
                words.extend([(17, Kind::Any), (18, Kind::Any), (19, Kind::Float)]);
            }
        }
        3 | 5 => words.push((1, Kind::IdOrNone(sheet.counts[1]))),
        4 => words.extend(vertex_floats(sheet, row).into_iter().map(float)),
        6 => {
            let vertices = triangle_vertices(sheet, row);
            words.extend((0..3).map(|word| (word, Kind::Id(vertices))));
        }
        7 => {
            words.push((0, Kind::Id(weight_vertices(sheet, row))));
            words.push((1, Kind::Float));
        }
        9 => {
            words.push((0, Kind::Any));
            let flags = sheet.tables[8].chunks(4).find(|list| holds(list, 2, row));
            let flags = flags.map_or(0, |list| list[1]);
            for (flag, parts) in [(1, 1..4), (2, 4..7), (4, 7..11)] {
                if flags & flag != 0 {
                    words.extend(floats(parts));
                }
            }
        }
        _ => {}
    }
    words
}

fn float(word: usize) -> (usize, Kind) {
    (word, Kind::Float)
}

/// Whether the rows that begin at word `first` of a row, with their count behind
/// it, have this one.
fn holds(list: &[u32], first: usize, row: usize) -> bool {
    let start = list[first] as usize;
    (start..start + list[first + 1] as usize).contains(&row)
}

/// The words of a vertex that its mesh says are there.
fn vertex_floats(sheet: &Sheet, row: usize) -> Vec<usize> {
    let mut meshes = sheet.tables[3].chunks(9);
    let mesh = meshes.find(|mesh| holds(mesh, 5, row)).expect("a mesh");
    let mut words: Vec<usize> = (0..3).collect();
    if mesh[2] & 1 != 0 {
        words.extend(3..6);
    }
    if mesh[2] & 2 != 0 {
        words.extend(6..10);
    }
    for set in 0..mesh[3] as usize {
        words.extend((0..mesh[4] as usize).map(|part| 10 + 4 * set + part));
    }
    words
}

/// The vertices that a triangle may name.
fn triangle_vertices(sheet: &Sheet, row: usize) -> u32 {
    let mut sets = sheet.tables[5].chunks(4);
    let set = sets.find(|set| holds(set, 2, row)).expect("a triangle set");
    sheet.row(3, set[0] as usize)[6]
}

/// The vertices that a weight may name: those of the nearest node above its bone with
/// an ANIM, of the root if none has one.
fn weight_vertices(sheet: &Sheet, row: usize) -> u32 {
    let is_its = |node: &&[u32]| node[13] == 2 && holds(node, 14, row);
    let bone = sheet.tables[2].chunks(21).find(is_its).expect("a bone");
    let mut above = sheet.row(2, bone[2] as usize);
    while above[16] == 0 && above[2] != NONE {
        above = sheet.row(2, above[2] as usize);
    }
    sheet.row(3, above[14] as usize)[6]
}
