//! Times the proved functions beside the independent ones and a plain copy of
//! the bytes: one run, the same file in memory, medians. The tables and the
//! output are made once for a file and lent again and again, so they are warm
//! and hold what the call before left there.
//!
//! All is in strict mode but the clearer; colours are timed in both.
//!
//! A line is a file: its size, then nanoseconds a byte for each function. The
//! last columns are ratios of medians.

mod cal3d;
mod compare;
mod mend;
mod pieces;

use kelompuris::{slices, Mode};
use scenes::Chunk;
use std::hint::black_box;
use std::time::{Duration, Instant};

/// Words of a row of tables 1 to 10.
const WIDTHS: [usize; 10] = [9, 17, 21, 9, 42, 4, 3, 2, 4, 11];
const NAMES: [&str; 10] = [
    "textures",
    "brushes",
    "nodes",
    "meshes",
    "vertices",
    "sets",
    "triangles",
    "weights",
    "lists",
    "keys",
];
/// How long one function is timed for, and at least how often it runs.
const TIME: Duration = Duration::from_millis(150);
const LEAST_RUNS: usize = 11;

fn main() {
    match std::env::args().nth(1).as_deref() {
        Some("mend") => return mend::lines(),
        Some("pieces") => return pieces::lines(),
        _ => {}
    }
    println!(
        "{:<10} {:>6} {:>9} | {:>7} {:>7} {:>7} {:>7} {:>8} {:>7} | {:>10} {:>9}",
        "table",
        "rows",
        "bytes",
        "judge",
        "read",
        "write",
        "clear",
        "ind.read",
        "copy",
        "read/ind.",
        "read/copy"
    );
    for table in 1..=10 {
        for rows in [64, 1024, 16_384, 131_072] {
            line(table, rows);
        }
    }
    colours();
    label_line();
    pieces::lines();
    compare::lines();
    mend::lines();
    cal3d::lines();
}

/// A file of vertices with colours, in both modes. The last column is a ratio
/// of medians.
fn colours() {
    println!();
    println!(
        "{:<18} {:>6} {:>9} | {:>9} {:>9} | {:>14}",
        "with colours", "rows", "bytes", "strict", "lenient", "strict/lenient"
    );
    for rows in [1024, 131_072] {
        let file = scenes::rows::file_with_colours(rows);
        let (mut tables, answer) = tables_for(&file);
        let judge = |mode| median(|| kelompuris::judge(mode, black_box(&file)).number);
        colour_line("judge", rows, file.len(), judge);
        let read = |mode| {
            median(|| kelompuris::read(mode, black_box(&file), &mut slices(&mut tables)).number)
        };
        colour_line("read", rows, file.len(), read);
        let filled = filled(&tables);
        let mut out = vec![0; file.len()];
        let write = |mode| {
            median(|| {
                let (version, slots) = (answer.version, answer.n_texs);
                let names = black_box(&file);
                kelompuris::write(
                    mode,
                    &filled,
                    &answer.counts,
                    version,
                    slots,
                    names,
                    &mut out,
                )
                .number
            })
        };
        colour_line("write", rows, file.len(), write);
    }
}

/// Nanoseconds a vertex in both modes.
fn colour_line(about: &str, rows: usize, bytes: usize, mut call: impl FnMut(Mode) -> Duration) {
    let (strict, lenient) = (call(Mode::Strict), call(Mode::Lenient));
    let a_row = |t: Duration| t.as_nanos() as f64 / rows as f64;
    println!(
        "{:<18} {:>6} {:>9} | {:>9.3} {:>9.3} | {:>14.2}",
        format!("{about}, ns a vertex"),
        rows,
        bytes,
        a_row(strict),
        a_row(lenient),
        strict.as_secs_f64() / lenient.as_secs_f64(),
    );
}

/// Tables that are just long enough for a file, and its answer.
fn tables_for(file: &[u8]) -> (Vec<Vec<u32>>, kelompuris::Answer) {
    let answer = kelompuris::judge(Mode::Strict, file);
    assert_eq!(answer.number, 0);
    let words = |k: usize| vec![0; WIDTHS[k] * answer.counts[k] as usize];
    ((0..10).map(words).collect(), answer)
}

fn filled(tables: &[Vec<u32>]) -> [&[u32]; 10] {
    std::array::from_fn(|table| tables[table].as_slice())
}

/// The label beside the judge and a copy, of a file near the size limit: a
/// root with a mesh, and 16,382 nodes each with an unknown chunk inside.
fn label_line() {
    let filler = Chunk::of_bytes(*b"XTRA", vec![7; 940]);
    let mut tree = scenes::damage::file_of(vec![scenes::damage::node_of(Vec::new())]);
    let children = vec![scenes::damage::node_of(vec![filler]); 16_382];
    let mut root = vec![scenes::rows::mesh(16_383, &[0])];
    root.extend(children);
    tree.chunks[0].chunks = root;
    let file = tree.bytes();
    let label = median(|| kelompuris::label(black_box(&file)).number);
    let judge = median(|| kelompuris::judge(Mode::Strict, black_box(&file)).number);
    let copy = copy_of(&file);
    let ratio = |other: Duration| other.as_nanos() as f64 / label.as_nanos().max(1) as f64;
    println!(
        "label of {} bytes: {} ns; the judge takes {:.0} times as long, a copy {:.0} times",
        file.len(),
        label.as_nanos(),
        ratio(judge),
        ratio(copy),
    );
}

fn line(table: usize, rows: usize) {
    let file = scenes::rows::file_with_rows(table, rows);
    let (mut tables, answer) = tables_for(&file);
    let mut out = vec![0; file.len()];
    let judge = median(|| kelompuris::judge(Mode::Strict, black_box(&file)).number);
    let mode = Mode::Strict;
    let read = median(|| kelompuris::read(mode, black_box(&file), &mut slices(&mut tables)).number);
    let independent = median(|| {
        let mode = reference::Mode::Strict;
        reference::read(mode, black_box(&file), &mut slices(&mut tables)).number
    });
    let filled = filled(&tables);
    let write = median(|| {
        let (version, slots) = (answer.version, answer.n_texs);
        let names = black_box(&file);
        kelompuris::write(
            mode,
            &filled,
            &answer.counts,
            version,
            slots,
            names,
            &mut out,
        )
        .number
    });
    let clear = median(|| kelompuris::clear(black_box(&file), &mut out).number);
    let copy = copy_of(&file);
    let a_byte = |t: Duration| t.as_nanos() as f64 / file.len() as f64;
    println!(
        "{:<10} {:>6} {:>9} | {:>7.2} {:>7.2} {:>7.2} {:>7.2} {:>8.2} {:>7.2} | {:>10.2} {:>9.0}",
        NAMES[table - 1],
        rows,
        file.len(),
        a_byte(judge),
        a_byte(read),
        a_byte(write),
        a_byte(clear),
        a_byte(independent),
        a_byte(copy),
        read.as_secs_f64() / independent.as_secs_f64(),
        read.as_secs_f64() / copy.as_secs_f64(),
    );
}

/// The median time of a plain copy of a file.
fn copy_of(file: &[u8]) -> Duration {
    let mut out = vec![0; file.len()];
    median(|| {
        out.copy_from_slice(black_box(file));
        u32::from(out[out.len() - 1] & 0)
    })
}

/// The median time of a call that answers 0.
fn median(mut call: impl FnMut() -> u32) -> Duration {
    let begun = Instant::now();
    let mut times = Vec::new();
    while times.len() < LEAST_RUNS || begun.elapsed() < TIME {
        let start = Instant::now();
        let number = black_box(call());
        times.push(start.elapsed());
        assert_eq!(number, 0);
    }
    times.sort();
    times[times.len() / 2]
}
