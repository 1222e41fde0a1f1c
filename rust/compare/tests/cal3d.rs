//! Compares the proved readers of cal3d's skeletons and meshes with the reference,
//! on valid files, on files with one fault and on files changed in any way, with
//! tables of many lengths, and prints how often each number was met. Fails at the
//! first disagreement, and if a number was never met.

use compare::{disagree, run, Compared, Disagreement, Format, Group, Mesh, Skeleton};
use kelompuris::slices;
use scenes::cal3d::{
    any_trees, changed, fault, mesh, mesh_with_all_rows, mesh_with_rows, skeleton, skeleton_of,
    skeleton_with_parents, with_number, wrong_trees, Made, NONE,
};
use scenes::change::{byte_change, word_change};
use scenes::Rng;
use std::process::ExitCode;
use std::time::{Duration, Instant};

const FILES: usize = 4000;
const CHANGES: usize = 10;

/// Most rows of a table.
const ROWS: usize = 16_383;

/// A valid file, whose tables must hold the words that it was made of; then with
/// one fault, and with changes in any way.
fn held<F: Format<H, T>, const H: usize, const T: usize>(
    compared: &mut Compared,
    format: F,
    made: &Made,
    rng: &mut Rng,
) -> Result<(), Disagreement> {
    let answer = compared.cal3d_known("generated", format, &made.file, (0, 0), rng)?;
    let mut tables = made.tables.clone();
    tables.iter_mut().flatten().for_each(|word| *word = !*word);
    let read = format.proved(&made.file, Some(&mut slices(&mut tables)));
    if read != answer || tables != made.tables {
        return disagree("not the words that it was made of", &made.file);
    }
    for _ in 0..CHANGES {
        let fault = fault(rng, made);
        let known = (fault.number, fault.place);
        compared.cal3d_known(fault.about, format, &fault.file, known, rng)?;
        compared.cal3d(format, &changed(rng, made), rng)?;
        compared.cal3d(format, &byte_change(&made.file, rng), rng)?;
        compared.cal3d(format, &word_change(&made.file, rng), rng)?;
    }
    Ok(())
}

fn skeletons(compared: &mut Compared, rng: &mut Rng) -> Result<(), Disagreement> {
    for _ in 0..FILES {
        held(compared, Skeleton, &skeleton(rng, 12), rng)?;
    }
    Ok(())
}

fn meshes(compared: &mut Compared, rng: &mut Rng) -> Result<(), Disagreement> {
    for _ in 0..FILES {
        let bones = rng.below(4) as u32;
        held(compared, Mesh { bones }, &mesh(rng, bones, 4), rng)?;
    }
    Ok(())
}

/// Meshes with bone ids anywhere, and any count of bones given: the first id that
/// is negative or not below the count is refused, and no other.
fn bone_counts(compared: &mut Compared, rng: &mut Rng) -> Result<(), Disagreement> {
    for _ in 0..FILES {
        let Made {
            mut file,
            influences,
            ..
        } = mesh(rng, 5, 3);
        if rng.percent(50) && !influences.is_empty() {
            let place = rng.pick(&influences);
            let id = rng.pick(&[0x7FFF_FFFF, 0x8000_0000, 0xFFFF_FFFE, 0xFFFF_FFFF]);
            file = with_number(&file, place, id);
        }
        let id_at = |place: usize| u32::from_le_bytes(file[place..place + 4].try_into().unwrap());
        for count in [0, 1, 2, 3, 5, 16_383, 0x8000_0000, 0xFFFF_FFFF] {
            let names = |id: u32| (id as i32) >= 0 && id < count;
            let known = match influences.iter().find(|&&place| !names(id_at(place))) {
                Some(&place) => (7, place),
                None => (0, 0),
            };
            let format = Mesh { bones: count };
            compared.cal3d_known("a count of bones", format, &file, known, rng)?;
        }
    }
    Ok(())
}

/// Lists and parents that do not tell the same trees, by one change, or in any
/// way.
fn trees(compared: &mut Compared, rng: &mut Rng) -> Result<(), Disagreement> {
    for _ in 0..20 * FILES {
        if let Some(fault) = wrong_trees(rng, 9) {
            let known = (16, fault.place);
            compared.cal3d_known(fault.about, Skeleton, &fault.file, known, rng)?;
        }
        compared.cal3d(Skeleton, &any_trees(rng, 5).file, rng)?;
    }
    Ok(())
}

/// Small files with each byte set to each of some values, and cut at each place.
fn every_byte(compared: &mut Compared, rng: &mut Rng) -> Result<(), Disagreement> {
    for _ in 0..40 {
        each_byte(compared, Skeleton, &skeleton(rng, 4).file, rng)?;
        each_byte(compared, Mesh { bones: 2 }, &mesh(rng, 2, 2).file, rng)?;
    }
    Ok(())
}

fn each_byte<F: Format<H, T>, const H: usize, const T: usize>(
    compared: &mut Compared,
    format: F,
    file: &[u8],
    rng: &mut Rng,
) -> Result<(), Disagreement> {
    for place in 0..file.len() {
        let mut changed = file.to_vec();
        for byte in [0, 1, 2, 3, 0x7F, 0x80, 0xFF, file[place] ^ 1] {
            changed[place] = byte;
            compared.cal3d(format, &changed, rng)?;
        }
        compared.cal3d(format, &file[..place], rng)?;
    }
    Ok(())
}

/// Tables of every length from none to a few words more than are needed: each
/// table beside others that are long enough, and all by the same number of words
/// off.
fn lengths(compared: &mut Compared, rng: &mut Rng) -> Result<(), Disagreement> {
    for _ in 0..100 {
        each_length(compared, Skeleton, &skeleton(rng, 6))?;
        each_length(compared, Mesh { bones: 2 }, &mesh(rng, 2, 3))?;
    }
    Ok(())
}

fn each_length<F: Format<H, T>, const H: usize, const T: usize>(
    compared: &mut Compared,
    format: F,
    made: &Made,
) -> Result<(), Disagreement> {
    const MORE: usize = 3;
    let full: [usize; T] = std::array::from_fn(|table| made.tables[table].len());
    for table in 0..T {
        for size in 0..=full[table] + MORE {
            let mut sizes = full;
            sizes[table] = size;
            let answer = compared.cal3d_read(format, &made.file, sizes)?;
            let known = match size < full[table] {
                true => (11, table as u32 + 1),
                false => (0, 0),
            };
            if (answer.number, answer.place) != known {
                return disagree(format!("both answer {answer:?} to {sizes:?}"), &made.file);
            }
        }
    }
    for size in 0..full.iter().max().unwrap() + MORE {
        compared.cal3d_read(format, &made.file, [size; T])?;
    }
    Ok(())
}

/// As many rows as there may be, and one more: chains from either end, a star and
/// a broad tree; 10 before 16.
fn skeleton_rows(compared: &mut Compared, rng: &mut Rng) -> Result<(), Disagreement> {
    for bones in [ROWS, ROWS + 1] {
        let trees: [&dyn Fn(usize) -> u32; 5] = [
            &|_| NONE,
            &|bone| (bone as u32).wrapping_sub(1),
            &|bone| {
                if bone + 1 == bones {
                    NONE
                } else {
                    bone as u32 + 1
                }
            },
            &|bone| if bone == 0 { NONE } else { 0 },
            &|bone| {
                if bone == 0 {
                    NONE
                } else {
                    (bone as u32 - 1) / 8
                }
            },
        ];
        for parent in trees {
            let parents: Vec<u32> = (0..bones).map(parent).collect();
            let made = skeleton_with_parents(rng, &parents);
            let known = if bones == ROWS { (0, 0) } else { (10, 1) };
            compared.cal3d_known("many bones", Skeleton, &made.file, known, rng)?;
        }
    }
    for children in [ROWS, ROWS + 1] {
        let lists = [vec![1; children], Vec::new()];
        let made = skeleton_of(rng, &[NONE, 0], &lists, 0);
        let known = match children == ROWS {
            true => (16, made.bones[1]),
            false => (10, 2),
        };
        compared.cal3d_known("many children", Skeleton, &made.file, known, rng)?;
    }
    Ok(())
}

/// The same for each table of a mesh, and for all at once; 10 after all faults of
/// the file.
fn mesh_rows(compared: &mut Compared, rng: &mut Rng) -> Result<(), Disagreement> {
    let format = Mesh { bones: 1 };
    for table in 1..=6 {
        for rows in [ROWS, ROWS + 1] {
            let made = mesh_with_rows(rng, table, rows);
            let known = if rows == ROWS { (0, 0) } else { (10, table) };
            compared.cal3d_known("many rows", format, &made.file, known, rng)?;
            let longer = [&made.file[..], &[0]].concat();
            let known = (5, made.file.len());
            compared.cal3d_known("a byte behind", format, &longer, known, rng)?;
        }
    }
    let format = Mesh { bones: ROWS as u32 };
    for submeshes in [1, 3, ROWS] {
        let made = mesh_with_all_rows(rng, submeshes, ROWS);
        let answer = compared.cal3d_known("all rows", format, &made.file, (0, 0), rng)?;
        if answer.counts[1..] != [ROWS as u32; 5] {
            return disagree(format!("both answer {answer:?}"), &[]);
        }
    }
    Ok(())
}

/// Files of as many bytes as there may be, and one more: a skeleton of one bone
/// with a long name, and a mesh of submeshes without vertices and a number behind
/// the last.
fn largest(compared: &mut Compared, rng: &mut Rng) -> Result<(), Disagreement> {
    const LARGEST: usize = 16_777_216;
    for spare in [0, 1] {
        let known = |answer| if spare == 0 { answer } else { (1, 0) };
        let mut made = Made::new(b"CSF\0", 2);
        made.item(&[1300, 1, 0, 0, 0]);
        let length = LARGEST - made.file.len() - 4 - 80 + spare;
        made.item(&[length as u32]);
        made.name(&rng.bytes(length));
        let mut numbers = [0; 20];
        numbers[14] = NONE;
        made.item(&numbers);
        compared.cal3d_known("largest", Skeleton, &made.file, known((0, 0)), rng)?;

        let mut made = Made::new(b"CMF\0", 6);
        let submeshes = (LARGEST - 12) / 24;
        made.item(&[700, submeshes as u32]);
        made.file.resize(LARGEST + spare, 0);
        let behind = 12 + 24 * submeshes;
        let format = Mesh { bones: 1 };
        compared.cal3d_known("largest", format, &made.file, known((5, behind)), rng)?;
    }
    Ok(())
}

/// Each count and length two thousand million, or as high as it goes: answered at
/// once; where it is the first, of bones or submeshes, by 5 behind the last.
fn high_counts(compared: &mut Compared, rng: &mut Rng) -> Result<(), Disagreement> {
    for _ in 0..100 {
        each_count(compared, Skeleton, &skeleton(rng, 6), rng)?;
        each_count(compared, Mesh { bones: 2 }, &mesh(rng, 2, 3), rng)?;
    }
    Ok(())
}

fn each_count<F: Format<H, T>, const H: usize, const T: usize>(
    compared: &mut Compared,
    format: F,
    made: &Made,
    rng: &mut Rng,
) -> Result<(), Disagreement> {
    for &place in &made.counts {
        for count in [2_000_000_000, 0x7FFF_FFFF] {
            let file = with_number(&made.file, place, count);
            let answer = compared.cal3d(format, &file, rng)?;
            let timed = || {
                let start = Instant::now();
                format.proved(&file, None);
                start.elapsed()
            };
            let least = [(); 3].map(|()| timed()).into_iter().min().unwrap();
            let behind = place != made.counts[0]
                || (answer.number, answer.place as usize) == (5, file.len());
            if least > Duration::from_millis(20) || !behind {
                return disagree(format!("{count} at {place}: {least:?}, {answer:?}"), &file);
            }
        }
    }
    Ok(())
}

const GROUPS: [(&str, Group); 10] = [
    ("skeletons, valid and damaged", skeletons),
    ("meshes, valid and damaged", meshes),
    ("bones below a count", bone_counts),
    ("lists and parents", trees),
    ("every byte of small files", every_byte),
    ("tables of every length", lengths),
    ("many rows of skeletons", skeleton_rows),
    ("many rows of meshes", mesh_rows),
    ("counts far past the bytes", high_counts),
    ("files at the limit of size", largest),
];

fn main() -> ExitCode {
    run(&GROUPS, &[0, 1, 2, 5, 6, 7, 10, 11, 16])
}
