//! The order of the checks, and cases at the edges of the rules.

mod common;

use common::*;
use reference::{judge, Mode};
use scenes::chunk::Chunk;
use scenes::damage::{file_of, node_of};

const NONE: u32 = 0xFFFF_FFFF;

fn of_words(tag: &[u8; 4], words: &[u32]) -> Chunk {
    let mut chunk = Chunk::new(tag);
    chunk.words(words);
    chunk
}

/// MESH of brush -1 with these chunks.
fn mesh_of(chunks: Vec<Chunk>) -> Chunk {
    let mut mesh = of_words(b"MESH", &[NONE]);
    mesh.chunks = chunks;
    mesh
}

fn vrts(vertices: usize) -> Chunk {
    of_words(b"VRTS", &vec![0; 3 + 3 * vertices])
}

fn tris(ids: &[u32]) -> Chunk {
    let mut words = vec![NONE];
    words.extend(ids);
    of_words(b"TRIS", &words)
}

fn anim() -> Chunk {
    of_words(b"ANIM", &[1, 2, 3])
}

fn keys() -> Chunk {
    of_words(b"KEYS", &[0, 7])
}

fn mesh() -> Chunk {
    mesh_of(vec![vrts(2), tris(&[0, 1, 0])])
}

/// A file with a root of these chunks.
fn root(chunks: Vec<Chunk>) -> Vec<u8> {
    file_of(vec![node_of(chunks)]).bytes()
}

/// Where the first chunk in the root stands, and the first in its MESH.
const INSIDE: u32 = 61;
const INSIDE_MESH: u32 = INSIDE + 12;

fn assert_accepted(file: &[u8]) {
    let answer = judge(Mode::Strict, file);
    assert_eq!((answer.number, answer.place), (0, 0));
}

#[test]
fn first_tag_before_first_length() {
    let mut file = root(vec![]);
    file[4] ^= 1;
    assert_refused(&file, 2, 4, "length");
    file[0] ^= 1;
    assert_refused(&file, 2, 0, "tag and length");
    file.truncate(11);
    assert_refused(&file, 1, 0, "size first");
}

#[test]
fn length_before_tag() {
    let mut chunk = Chunk::new(b"VRTS");
    assert_refused(&root(vec![chunk.clone()]), 4, INSIDE, "tag");
    chunk.wrong_length = Some(1);
    assert_refused(&root(vec![chunk]), 3, INSIDE, "length and tag");
}

#[test]
fn seven_bytes_before_a_missing_tris() {
    for spare in 1..=7 {
        let mut mesh = mesh_of(vec![vrts(1)]);
        assert_refused(&root(vec![mesh.clone()]), 8, INSIDE, "no TRIS");
        mesh.tail = vec![0; spare];
        let place = INSIDE_MESH + 8 + 24;
        assert_refused(&root(vec![mesh]), 3, place, "spare bytes");
    }
}

#[test]
fn eight_zero_bytes_are_an_unknown_chunk() {
    let mut node = node_of(vec![]);
    node.tail = vec![0; 8];
    assert_accepted(&file_of(vec![node]).bytes());
}

#[test]
fn depth_before_fixed_data_and_after_length() {
    let mut deepest = Chunk::new(b"NODE");
    let around = |chunk: Chunk| {
        let inside = (0..15).fold(vec![chunk], |inside, _| vec![node_of(inside)]);
        root(inside)
    };
    assert_refused(&around(deepest.clone()), 9, 12 + 16 * 49, "depth");
    deepest.wrong_length = Some(1);
    assert_refused(&around(deepest), 3, 12 + 16 * 49, "length");
}

#[test]
fn item_size_before_its_numbers_and_after_earlier_items() {
    let mut cut = tris(&[0, 9, 9]);
    cut.data.pop();
    let file = root(vec![mesh_of(vec![vrts(1), cut])]);
    let item = INSIDE_MESH + 32 + 8 + 4;
    assert_refused(&file, 5, item, "cut item with bad ids");
    let mut later = tris(&[0, 9, 9, 0, 0, 0]);
    later.data.pop();
    let file = root(vec![mesh_of(vec![vrts(1), later])]);
    assert_refused(&file, 7, item + 4, "bad id before a cut item");
}

#[test]
fn numbers_in_file_order() {
    for (numbers, number) in [([4, 9, 5], 0), ([3, 9, 5], 1), ([3, 8, 5], 2)] {
        let vrts = of_words(b"VRTS", &numbers);
        let file = root(vec![mesh_of(vec![vrts])]);
        let place = INSIDE_MESH + 8 + 4 * number;
        assert_refused(&file, 6, place, "VRTS numbers");
    }
    let mut short = of_words(b"VRTS", &[4, 9, 5]);
    short.data.pop();
    let file = root(vec![mesh_of(vec![short])]);
    assert_refused(&file, 5, INSIDE_MESH + 8, "cut VRTS numbers");
}

#[test]
fn mesh_order() {
    let file = root(vec![mesh_of(vec![tris(&[]), vrts(1)])]);
    assert_refused(&file, 4, INSIDE_MESH, "TRIS before VRTS");
    let file = root(vec![mesh_of(vec![vrts(0), vrts(0), tris(&[])])]);
    assert_refused(&file, 4, INSIDE_MESH + 20, "second VRTS");
    let file = root(vec![mesh_of(vec![vrts(0), tris(&[]), vrts(0)])]);
    assert_refused(&file, 4, INSIDE_MESH + 20 + 12, "VRTS after TRIS");
    assert_refused(&root(vec![mesh_of(vec![])]), 8, INSIDE, "neither");
    assert_accepted(&root(vec![mesh_of(vec![vrts(0), tris(&[])])]));
}

#[test]
fn node_order() {
    let child = || node_of(vec![]);
    let size = |chunk: &Chunk| chunk.size() as u32;
    for before in [keys(), anim(), child(), mesh(), Chunk::new(b"BONE")] {
        for second in [mesh(), Chunk::new(b"BONE")] {
            let place = INSIDE + size(&before);
            let file = root(vec![before.clone(), second]);
            assert_refused(&file, 4, place, "kind not first");
        }
    }
    for after in [keys(), anim()] {
        let file = root(vec![child(), after]);
        assert_refused(&file, 4, INSIDE + 49, "after a child");
    }
    assert_accepted(&root(vec![
        mesh(),
        keys(),
        anim(),
        keys(),
        child(),
        child(),
    ]));
    assert_accepted(&root(vec![anim(), keys(), keys(), child()]));
    let xtra = || Chunk::of_bytes(*b"mesh", vec![1; 5]);
    assert_accepted(&root(vec![xtra(), mesh(), xtra(), keys(), xtra(), child()]));
}

#[test]
fn anim_twice_and_anim_length() {
    let wrong = |words: &[u32]| of_words(b"ANIM", words);
    let file = root(vec![anim(), keys(), wrong(&[1])]);
    assert_refused(&file, 4, INSIDE + 20 + 16, "second ANIM");
    for words in [&[][..], &[1, 2], &[1, 2, 3, 4]] {
        let file = root(vec![wrong(words)]);
        assert_refused(&file, 5, INSIDE + 8, "ANIM length");
    }
}

#[test]
fn top_order() {
    let texs = || Chunk::new(b"TEXS");
    let brus = || of_words(b"BRUS", &[8]);
    let node = || node_of(vec![]);
    let cases = [
        (vec![texs(), texs()], 20),
        (vec![brus(), texs()], 24),
        (vec![brus(), brus()], 24),
        (vec![node(), texs()], 61),
        (vec![node(), brus()], 61),
        (vec![node(), node()], 61),
        (vec![file_of(vec![])], 12),
        (vec![anim()], 12),
    ];
    for (chunks, place) in cases {
        assert_refused(&file_of(chunks).bytes(), 4, place, "top level");
    }
    assert_accepted(&file_of(vec![texs(), brus(), node()]).bytes());
    assert_accepted(&file_of(vec![brus()]).bytes());
}

#[test]
fn brus_without_items() {
    let file = |n_texs| file_of(vec![of_words(b"BRUS", &[n_texs])]).bytes();
    assert_eq!(judge(Mode::Strict, &file(8)).number, 0);
    assert_eq!(judge(Mode::Strict, &file(8)).n_texs, 0);
    assert_refused(&file(9), 6, 20, "n_texs");
    assert_refused(&file(NONE), 6, 20, "n_texs");
    let empty = file_of(vec![Chunk::new(b"BRUS")]).bytes();
    assert_refused(&empty, 5, 20, "no n_texs");
    assert_eq!(cleared(&file(8)), file_of(vec![]).bytes());
}

#[test]
fn bones() {
    let bone = |words: &[u32]| of_words(b"BONE", words);
    assert_accepted(&root(vec![bone(&[])]));
    assert_refused(&root(vec![bone(&[0, 0])]), 7, INSIDE + 8, "root's BONE");
    let child = |chunks| node_of(chunks);
    assert_accepted(&root(vec![mesh(), child(vec![bone(&[1, 0])])]));
    let place = INSIDE + mesh().size() as u32 + 49 + 8;
    let file = root(vec![mesh(), child(vec![bone(&[2, 0])])]);
    assert_refused(&file, 7, place, "third of two vertices");
    // The mesh of another node than the root does not count.
    let file = root(vec![child(vec![mesh(), child(vec![bone(&[0, 0])])])]);
    assert_refused(&file, 7, place + 49, "no root mesh");
}

#[test]
fn ids_of_the_own_mesh() {
    let other = node_of(vec![mesh_of(vec![vrts(1), tris(&[0, 0, 1])])]);
    let file = root(vec![mesh(), other]);
    let place = INSIDE + mesh().size() as u32 + 49 + 12 + 32 + 8 + 4 + 8;
    assert_refused(&file, 7, place, "a vertex of the first mesh");
}

#[test]
fn firsts_of_empty_lists() {
    let empty = of_words(b"KEYS", &[0]);
    let bone = |words: &[u32]| node_of(vec![of_words(b"BONE", words)]);
    let second = node_of(vec![mesh_of(vec![vrts(0), tris(&[])])]);
    let file = root(vec![
        mesh(),
        keys(),
        empty.clone(),
        bone(&[0, 0]),
        bone(&[]),
        second,
    ]);
    let sheet = sheet_of(&file);
    assert_eq!(sheet.row(8, 1), [0, 0, 1, 0]);
    assert_eq!(sheet.row(2, 2)[13..16], [2, 1, 0]);
    assert_eq!(sheet.row(3, 1)[5..], [2, 0, 1, 1]);
    assert_eq!(sheet.row(5, 1), [1, NONE, 1, 0]);
}

#[test]
fn short_tables_lowest_first() {
    let file = root(vec![mesh(), keys()]);
    let full = sizes(&judge(Mode::Strict, &file).counts);
    for table in 0..10 {
        for lower in 0..=table {
            let mut size = full;
            if size[table] == 0 || size[lower] == 0 {
                continue;
            }
            size[table] = full[table] - 1;
            size[lower] = full[lower] - 1;
            let mut tables = lend(size);
            let answer = read_into(&file, &mut tables);
            assert_eq!(answer, refusal(11, lower as u32 + 1));
            assert_eq!(tables, lend(size));
        }
    }
}
