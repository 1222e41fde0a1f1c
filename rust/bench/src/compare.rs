//! Two files compared, beside reading both into tables.

use crate::{median, tables_for};
use kelompuris::{slices, Mode};
use scenes::damage::{file_of, node_of};
use scenes::rows::file_with_rows;
use scenes::Chunk;
use std::hint::black_box;
use std::time::Duration;

const VERTICES: usize = 20_000;
const TRIANGLES: usize = 40_000;
const WEIGHTS: usize = 20_000;
const KEYS: usize = 6_000;
const NODES: usize = 5_000;
const MINUS_ONE: u32 = 0xFFFF_FFFF;
/// The words of a vertex: place, normal, one set of two coordinates.
const VERTEX_WORDS: usize = 8;

/// A line for each pair: the list's bytes, milliseconds for reading both files
/// and for comparing them, and the ratio.
pub fn lines() {
    println!("\ntwo files compared, beside reading both");
    println!(
        "{:<30} {:>9} {:>9} | {:>9} {:>9} | {:>12}",
        "pair", "bytes", "list", "read, ms", "comp., ms", "compare/read"
    );
    let plain = |_: usize, _: usize| 0;
    let scene = scene(plain);
    let nodes = file_with_rows(3, NODES);
    let pairs = [
        ("the same scene", scene.clone(), scene.clone()),
        (
            "100 vertices, 1 word",
            scene.clone(),
            self::scene(|v, w| u32::from(v % 200 == 0 && w == 0)),
        ),
        (
            "every vertex, 1 word",
            scene.clone(),
            self::scene(|_, w| u32::from(w == 0)),
        ),
        (
            "every vertex, every word",
            scene.clone(),
            self::scene(|v, w| 0x3F80_0000 + (v + w) as u32),
        ),
        ("5,000 nodes, the same", nodes.clone(), nodes),
    ];
    for (name, first, second) in pairs {
        line(name, &first, &second);
    }
}

fn line(name: &str, first: &[u8], second: &[u8]) {
    let (mut tables, _) = tables_for(first);
    let mut read = |file: &[u8]| {
        median(|| kelompuris::read(Mode::Lenient, black_box(file), &mut slices(&mut tables)).number)
    };
    let both = read(first) + read(second);
    let size = match kelompuris::compare(first, second, &mut []) {
        answer if answer.number == 11 => answer.place as usize,
        answer => answer.size as usize,
    };
    let mut out = vec![0; size];
    let compare =
        median(|| kelompuris::compare(black_box(first), black_box(second), &mut out).number);
    let ms = |time: Duration| time.as_secs_f64() * 1000.0;
    println!(
        "{name:<30} {:>9} {size:>9} | {:>9.3} {:>9.3} | {:>12.1}",
        first.len(),
        ms(both),
        ms(compare),
        compare.as_secs_f64() / both.as_secs_f64(),
    );
}

/// A mesh with triangles, a bone and keys; `more(v, w)` is added to word `w` of
/// vertex `v`.
fn scene(more: impl Fn(usize, usize) -> u32) -> Vec<u8> {
    let mut vrts = Chunk::new(b"VRTS");
    vrts.words(&[1, 1, 2]);
    for v in 0..VERTICES {
        let words: Vec<u32> = (0..VERTEX_WORDS).map(|w| (v + w) as u32 + more(v, w)).collect();
        vrts.words(&words);
    }
    let mut tris = Chunk::new(b"TRIS");
    tris.word(MINUS_ONE);
    for t in 0..TRIANGLES {
        let corner = |n: usize| ((t + n) % VERTICES) as u32;
        tris.words(&[corner(0), corner(1), corner(2)]);
    }
    let mut mesh = Chunk::new(b"MESH");
    mesh.word(MINUS_ONE);
    mesh.chunks = vec![vrts, tris];
    let mut bone = Chunk::new(b"BONE");
    for v in 0..WEIGHTS {
        bone.words(&[(v % VERTICES) as u32, 0x3F00_0000]);
    }
    let mut keys = Chunk::new(b"KEYS");
    keys.word(7);
    for frame in 0..KEYS {
        keys.word(frame as u32);
        keys.words(&[0x3F00_0000; 10]);
    }
    let arm = node_of(vec![bone, keys]);
    file_of(vec![node_of(vec![mesh, arm])]).bytes()
}
