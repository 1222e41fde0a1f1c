//! The mender beside the clearer and a copy: a scene without faults and with
//! bad triangles, then files of one shape each, so that the cost a byte can be
//! held to that of a smaller file.

use crate::{copy_of, median};
use scenes::damage::{file_of, node_of};
use scenes::rows::{file_with_rows, mesh};
use scenes::Chunk;
use std::hint::black_box;
use std::time::Duration;

const MINUS_ONE: u32 = 0xFFFF_FFFF;
/// Rows of each table of the scene.
const ROWS: usize = 16_383;

/// Prints the tables.
pub fn lines() {
    println!("\nmending a scene of {ROWS} vertices, triangles, weights and keys; microseconds");
    println!(
        "{:<8} {:>9} | {:>8} {:>8} {:>8} {:>8} | {:>10}",
        "faults", "bytes", "mend", "clear", "judge", "copy", "mend/clear"
    );
    let whole = scene(0);
    let clear = clear_of(&whole);
    let mode = kelompuris::Mode::Lenient;
    let judge = median(|| kelompuris::judge(mode, black_box(&whole)).number);
    for faults in [0, 1, 1_000, 10_000] {
        let file = scene(faults);
        let mend = mend_of(&file);
        let micro = |t: Duration| t.as_nanos() as f64 / 1000.0;
        println!(
            "{:<8} {:>9} | {:>8.1} {:>8.1} {:>8.1} {:>8.1} | {:>10.2}",
            faults,
            file.len(),
            micro(mend),
            micro(clear),
            micro(judge),
            micro(copy_of(&file)),
            mend.as_secs_f64() / clear.as_secs_f64(),
        );
    }
    println!("\nmending files of one shape; nanoseconds a byte");
    println!("{:<16} {:>8} {:>9} | {:>7}", "shape", "rows", "bytes", "mend");
    for (name, make) in shapes() {
        for rows in [2_000, 20_000, 100_000] {
            let file = make(rows);
            println!(
                "{:<16} {:>8} {:>9} | {:>7.2}",
                name,
                rows,
                file.len(),
                mend_of(&file).as_nanos() as f64 / file.len() as f64,
            );
        }
    }
}

type Shape = (&'static str, fn(usize) -> Vec<u8>);

/// Files of one shape by their rows. Where there is a fault, there is one in
/// each row.
fn shapes() -> [Shape; 9] {
    [
        ("nodes", |n| with_fault(file_with_rows(3, n))),
        ("meshes", |n| with_fault(file_with_rows(4, n))),
        ("triangle sets", |n| with_fault(file_with_rows(6, n))),
        ("triangles", |n| with_fault(file_with_rows(7, n))),
        ("key lists", |n| with_fault(file_with_rows(9, n))),
        ("bad triangles", |n| {
            file_of(vec![node_of(vec![mesh(0, &[n])])]).bytes()
        }),
        ("bad brushes", |n| {
            file_of(vec![node_of(vec![brushed(n)])]).bytes()
        }),
        ("unknown chunks", |n| {
            let other = Chunk::of_bytes(*b"XTRA", vec![7; 8]);
            with_fault(file_of(vec![node_of(vec![other; n])]).bytes())
        }),
        ("spare in nodes", |n| {
            let mut inner = node_of(Vec::new());
            inner.tail = vec![1, 2, 3];
            file_of(vec![node_of(vec![inner; n])]).bytes()
        }),
    ]
}

/// The file with a wrong BB3D length, so that no file is mended by a copy.
fn with_fault(mut file: Vec<u8>) -> Vec<u8> {
    file[4] ^= 1;
    file
}

/// A mesh with this many empty TRIS, each of a brush that there is not.
fn brushed(sets: usize) -> Chunk {
    let mut chunk = mesh(1, &vec![0; sets]);
    for tris in &mut chunk.chunks[1..] {
        *tris = Chunk::new(b"TRIS");
        tris.word(3);
    }
    chunk
}

/// A scene in which `faults` triangles, as far apart as can be, name a vertex
/// that there is not.
fn scene(faults: usize) -> Vec<u8> {
    let mut vrts = Chunk::new(b"VRTS");
    vrts.words(&[1, 1, 2]);
    vrts.words(&vec![0; 8 * ROWS]);
    let mut tris = Chunk::new(b"TRIS");
    tris.word(MINUS_ONE);
    let apart = ROWS / faults.max(1);
    for i in 0..ROWS {
        let bad = i % apart == 0 && i / apart < faults;
        tris.words(&[0, if bad { ROWS } else { i } as u32, 1]);
    }
    let mut body = Chunk::new(b"MESH");
    body.word(MINUS_ONE);
    body.chunks = vec![vrts, tris];
    let mut bone = Chunk::new(b"BONE");
    for i in 0..ROWS {
        bone.words(&[i as u32, 0]);
    }
    let mut keys = Chunk::new(b"KEYS");
    keys.word(7);
    keys.words(&vec![0; 11 * ROWS]);
    file_of(vec![node_of(vec![body, keys, node_of(vec![bone])])]).bytes()
}

/// The median time of mending a file.
fn mend_of(file: &[u8]) -> Duration {
    let mut out = vec![0; file.len()];
    let mut report = vec![0; 10 * file.len()];
    median(|| kelompuris::mend(black_box(file), &mut out, &mut report).number)
}

/// The median time of clearing a file.
fn clear_of(file: &[u8]) -> Duration {
    let mut out = vec![0; file.len()];
    median(|| kelompuris::clear(black_box(file), &mut out).number)
}
