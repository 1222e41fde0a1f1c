//! Inputs to begin with.

use fuzz::{Function, Input, FUNCTIONS, LENIENT};
use scenes::cal3d::{mesh, skeleton};
use scenes::damage::{file_of, node_of};
use scenes::mendable::mendable;
use scenes::pairs::{few_cells, one_less, other_numbers};
use scenes::{groups, rows, scene, worked, Chunk, Profile, Rng};
use std::path::Path;
use std::{fs, io};

/// Longest file.
const LONGEST: usize = 2000;

/// Writes inputs into a folder: these files and generated valid ones, for each function;
/// pairs of valid files, files that can be mended, key lists out of the order of their nodes,
/// a slip and its numbers, and a root whose ANIM stands before its MESH.
pub fn write(folder: &Path, mut files: Vec<Vec<u8>>) -> io::Result<()> {
    fs::create_dir_all(folder)?;
    let mut rng = Rng::new(2026);
    files.extend([worked::h_and_unknown(), worked::t(), worked::brush(2)]);
    files.push(worked::chain(16));
    let profiles = [Profile::SMALL, Profile::SMALL, Profile::WIDE, Profile::DEEP];
    for profile in profiles.iter().cycle().take(60) {
        files.push(scene(&mut rng, *profile).file);
    }
    for most in 1..=6 {
        files.push(skeleton(&mut rng, most).file);
        files.push(mesh(&mut rng, 3, most.min(3)).file);
    }
    for (number, file) in files.iter().enumerate() {
        for first in 0..FUNCTIONS.len() as u8 {
            let first = first | if rng.percent(50) { LENIENT } else { 0 };
            let input = Input {
                first,
                parameters: &[],
                file,
            };
            if file.len() > LONGEST || !suits(&input) {
                continue;
            }
            let parameters = match input.function() {
                Function::Mesh => vec![3],
                Function::Judge | Function::Label => Vec::new(),
                _ => rng.bytes(number % 8),
            };
            let input = Input {
                parameters: &parameters,
                ..input
            };
            fs::write(folder.join(format!("{number}_{first}")), input.bytes())?;
        }
    }
    write_others(folder, &mut rng)
}

/// Writes the inputs that are for one function.
fn write_others(folder: &Path, rng: &mut Rng) -> io::Result<()> {
    fs::write(folder.join("lists"), lists_out_of_order())?;
    let numbers = [1, 2, 0, 1, 127, 128, 16_383, 16_384, 2_097_151, 5, 6, 7];
    let words = numbers.map(u32::to_le_bytes).concat();
    let mut inputs = vec![
        (Function::Label, anim_before_mesh()),
        (Function::WriteSlip, words),
        (Function::ReadSlip, groups::of(&numbers)),
    ];
    for profile in [Profile::SMALL, Profile::WIDE, Profile::DEEP, Profile::SMALL] {
        for most in [1, 10] {
            let pair = few_cells(rng, profile, most);
            inputs.push((Function::Compare, [pair.first, pair.second].concat()));
            let pair = other_numbers(rng, profile);
            inputs.push((Function::Compare, [pair.first, pair.second].concat()));
            let pair = one_less(rng, profile);
            inputs.push((Function::Compare, [pair.first, pair.second].concat()));
            for percent in [5, 30] {
                let file = mendable(&scene(rng, profile), rng, percent).file;
                inputs.push((Function::Mend, file));
            }
        }
    }
    for (number, (function, file)) in inputs.iter().enumerate() {
        if file.len() <= 2 * LONGEST {
            let name = format!("other_{number}");
            fs::write(folder.join(name), input(*function, file))?;
        }
    }
    Ok(())
}

/// The input that asks for the label of `anim_before_mesh`. It reaches no block that others do
/// not, but tells a walk that looks for a MESH behind the first known chunk.
pub fn label_of_anim() -> Vec<u8> {
    input(Function::Label, &anim_before_mesh())
}

/// The input that asks for a file of two nodes with a key list each, the lists' nodes exchanged:
/// each cell by itself is one that a file has, but the lists are out of the order of their nodes.
pub fn lists_out_of_order() -> Vec<u8> {
    let child = node_of(vec![rows::keys(1)]);
    let root = node_of(vec![rows::keys(1), child]);
    // As long an output as is needed, nothing beside the edits; then: exchange of table 9 and
    // its row 0, with row 1, word 0.
    let parameters = [0, 0, 137, 8, 0, 1, 0];
    input_with(Function::Write, &parameters, &file_of(vec![root]).bytes())
}

/// An input for a function, without parameters.
fn input(function: Function, file: &[u8]) -> Vec<u8> {
    input_with(function, &[], file)
}

/// An input for a function.
fn input_with(function: Function, parameters: &[u8], file: &[u8]) -> Vec<u8> {
    let first = FUNCTIONS.iter().position(|other| *other == function);
    let input = Input {
        first: first.expect("each function has a number") as u8,
        parameters,
        file,
    };
    input.bytes()
}

/// A file that the reader refuses, and whose label has no vertices: the first known chunk
/// of its root is an ANIM, and behind that stands a MESH.
fn anim_before_mesh() -> Vec<u8> {
    let mut anim = Chunk::new(b"ANIM");
    anim.words(&[0, 10, 0]);
    let root = node_of(vec![anim, rows::mesh(3, &[1])]);
    file_of(vec![root]).bytes()
}

/// Whether a file is of the format that a function takes; slips take any.
fn suits(input: &Input) -> bool {
    let magic = input.file.get(..4);
    match input.function() {
        Function::Skeleton => magic == Some(b"CSF\0"),
        Function::Mesh => magic == Some(b"CMF\0"),
        Function::ReadSlip | Function::WriteSlip => input.file.len() < 200,
        _ => magic == Some(b"BB3D"),
    }
}
