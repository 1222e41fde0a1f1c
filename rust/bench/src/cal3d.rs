//! Skeletons and meshes of cal3d.

use crate::{copy_of, median};
use kelompuris::slices;
use scenes::cal3d::{mesh_with_all_rows, skeleton_with_parents, with_number, Made, NONE};
use scenes::Rng;
use std::hint::black_box;
use std::time::Duration;

/// Skeletons by the parent of each of so many bones.
type Parent = fn(u32, u32) -> u32;
const SKELETONS: [(&str, Parent); 4] = [
    ("chain, root first", |bone, _| bone.wrapping_sub(1)),
    ("chain, root last", |bone, bones| match bone + 1 == bones {
        true => NONE,
        false => bone + 1,
    }),
    ("star", |bone, _| if bone == 0 { NONE } else { 0 }),
    ("tree, 8 children", |bone, _| match bone {
        0 => NONE,
        _ => (bone - 1) / 8,
    }),
];

pub fn lines() {
    println!();
    println!(
        "{:<18} {:>6} {:>9} | {:>7} {:>7} {:>8} {:>7} | {:>10} {:>9}",
        "cal3d", "rows", "bytes", "judge", "read", "ind.read", "copy", "read/ind.", "read/copy"
    );
    let mut rng = Rng::new(9);
    for (about, parent) in SKELETONS {
        for bones in [64, 1024, 16_383] {
            let parents: Vec<u32> = (0..bones).map(|bone| parent(bone, bones)).collect();
            skeleton_line(about, &skeleton_with_parents(&mut rng, &parents), bones);
        }
    }
    for rows in [64, 1024, 16_383] {
        let made = mesh_with_all_rows(&mut rng, 1, rows);
        mesh_line("mesh, 1 submesh", &made, rows as u32);
    }
    for rows in [64, 1024, 16_383] {
        let made = mesh_with_all_rows(&mut rng, rows, rows);
        mesh_line("mesh, n submeshes", &made, rows as u32);
    }
    let made = skeleton_with_parents(&mut rng, &[NONE; 64]);
    high_line("a skeleton", &made, |file| {
        kelompuris::cal3d::judge_skeleton(file).number
    });
    let made = mesh_with_all_rows(&mut rng, 1, 64);
    high_line("a mesh", &made, |file| {
        kelompuris::cal3d::judge_mesh(file, 64).number
    });
}

/// A file whose header says two thousand million bones or submeshes: 5.
fn high_line(about: &str, made: &Made, judge: impl Fn(&[u8]) -> u32) {
    let file = with_number(&made.file, 8, 2_000_000_000);
    let time = median(|| judge(black_box(&file)) - 5);
    println!(
        "{about} of {} bytes that says 2,000,000,000 entries: refused after {} ns",
        file.len(),
        time.as_nanos(),
    );
}

fn skeleton_line(about: &str, made: &Made, bones: u32) {
    let (file, mut tables) = (&made.file, made.tables.clone());
    let judge = median(|| kelompuris::cal3d::judge_skeleton(black_box(file)).number);
    let read = median(|| {
        kelompuris::cal3d::read_skeleton(black_box(file), &mut slices(&mut tables)).number
    });
    let independent = median(|| {
        reference::cal3d::read_skeleton(black_box(file), &mut slices(&mut tables)).number
    });
    line(about, bones, file, [judge, read, independent]);
}

/// A mesh for a skeleton of as many bones as it has rows.
fn mesh_line(about: &str, made: &Made, rows: u32) {
    let (file, mut tables) = (&made.file, made.tables.clone());
    let judge = median(|| kelompuris::cal3d::judge_mesh(black_box(file), rows).number);
    let read = median(|| {
        kelompuris::cal3d::read_mesh(black_box(file), rows, &mut slices(&mut tables)).number
    });
    let independent = median(|| {
        reference::cal3d::read_mesh(black_box(file), rows, &mut slices(&mut tables)).number
    });
    line(about, rows, file, [judge, read, independent]);
}

/// Nanoseconds a byte.
fn line(about: &str, rows: u32, file: &[u8], [judge, read, independent]: [Duration; 3]) {
    let copy = copy_of(file);
    let a_byte = |t: Duration| t.as_nanos() as f64 / file.len() as f64;
    println!(
        "{:<18} {:>6} {:>9} | {:>7.2} {:>7.2} {:>8.2} {:>7.2} | {:>10.2} {:>9.0}",
        about,
        rows,
        file.len(),
        a_byte(judge),
        a_byte(read),
        a_byte(independent),
        a_byte(copy),
        read.as_secs_f64() / independent.as_secs_f64(),
        read.as_secs_f64() / copy.as_secs_f64(),
    );
}
