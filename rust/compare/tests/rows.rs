//! Takes the tables of files row by row and compares them with those of the reference: generated and damaged files, small files with each byte changed, and
//! states that no call left.

use compare::{run, Compared, Disagreement, Group};
use kelompuris::row_by_row::{start, State};
use scenes::change::{byte_change, changed};
use scenes::damage::aimed;
use scenes::worked;
use scenes::{scene, Profile, Rng};
use std::process::ExitCode;

const SCENES: usize = 1000;
const CHANGES: usize = 10;
const STATES: usize = 200_000;

/// The cases of paper 01, and nodes 16 and 17 deep.
fn worked_files(compared: &mut Compared, _: &mut Rng) -> Result<(), Disagreement> {
    for case in worked::cases() {
        compared.row_by_row(&case.file)?;
    }
    for levels in [1, 15, 16, 17, 40] {
        compared.row_by_row(&worked::chain(levels))?;
    }
    Ok(())
}

/// Generated files, accepted, with one fault, changed in any way, and cut.
fn generated(compared: &mut Compared, rng: &mut Rng) -> Result<(), Disagreement> {
    for _ in 0..SCENES {
        let profile = Profile::any(rng);
        let scene = scene(rng, profile);
        compared.row_by_row(&scene.file)?;
        for damaged in aimed(&scene, rng) {
            compared.row_by_row(&damaged.file)?;
        }
        for _ in 0..CHANGES {
            compared.row_by_row(&changed(&scene, rng))?;
            compared.row_by_row(&byte_change(&scene.file, rng))?;
            compared.row_by_row(&scene.file[..rng.below(scene.file.len())])?;
        }
    }
    Ok(())
}

/// Small files with each byte set to each of some values.
fn every_byte(compared: &mut Compared, rng: &mut Rng) -> Result<(), Disagreement> {
    let mut files = vec![worked::h_and_unknown(), worked::t()];
    while files.len() < 10 {
        let file = scene(rng, Profile::SMALL).file;
        if file.len() < 700 {
            files.push(file);
        }
    }
    for file in files {
        for place in 0..file.len() {
            let mut changed = file.clone();
            for byte in [0, 1, 4, 0x7F, 0x80, 0xFF, file[place] ^ 1] {
                changed[place] = byte;
                compared.row_by_row(&changed)?;
            }
        }
    }
    Ok(())
}

/// States that a few rows left, with numbers changed: a call with one ends, and says what it did.
fn any_states(compared: &mut Compared, rng: &mut Rng) -> Result<(), Disagreement> {
    let file = scene(rng, Profile::WIDE).file;
    for _ in 0..STATES {
        let mut state = start(&file, rng.below(12) as u32);
        for _ in 0..rng.below(4) {
            state = compared.next_row(&file, state)?.0.state;
        }
        for _ in 0..=rng.below(3) {
            change(&mut state, file.len(), rng);
        }
        compared.next_row(&file, state)?;
    }
    Ok(())
}

/// Changes a number of a state: to one near to it, small, up to the file's size, or any.
fn change(state: &mut State, size: usize, rng: &mut Rng) {
    let any = |rng: &mut Rng, old: usize| match rng.below(4) {
        0 => old.wrapping_add(rng.below(5)).wrapping_sub(2),
        1 => rng.below(50),
        2 => rng.below(size + 2),
        _ => usize::MAX - rng.below(3),
    };
    let State {
        item_words,
        items_at,
        items_end,
        inner_at,
        inner_end,
        at,
        nodes,
        meshes,
        vertices,
        sets,
        triangles,
        weights,
        lists,
        keys,
        depth,
        open_ends,
        ..
    } = state;
    let open_end = &mut open_ends[rng.below(16)];
    let mut numbers = [
        item_words, items_at, items_end, inner_at, inner_end, at, nodes, meshes, vertices, sets,
        triangles, weights, lists, keys, depth, open_end,
    ];
    match rng.below(numbers.len() + 5) {
        0 => state.table = any(rng, state.table as usize) as u32,
        1 => state.item_flags = any(rng, state.item_flags as usize) as u32,
        2 => state.item_sets = any(rng, state.item_sets as usize) as u32,
        3 => state.item_size = any(rng, state.item_size as usize) as u32,
        4 => state.open_nodes[rng.below(16)] = any(rng, 0) as u32,
        which => {
            let number = &mut numbers[which - 5];
            **number = any(rng, **number);
        }
    }
}

const GROUPS: [(&str, Group); 4] = [
    ("cases of paper 01", worked_files),
    ("generated and damaged files", generated),
    ("every byte of small files", every_byte),
    ("any states", any_states),
];

fn main() -> ExitCode {
    run(&GROUPS, &[0, 15])
}
