//! Compares the proved functions with the reference on the cases of paper 01,
//! on generated files and on damaged ones, and prints how often each number
//! was met. Fails at the first disagreement, and if a number was never met.

use compare::{disagree, run, Compared, Disagreement, Group};
use scenes::change::changed;
use scenes::colour::{outside, outside_and_cut};
use scenes::damage::{aimed, node_of};
use scenes::nesting::orders;
use scenes::rows::{keys, MOST_ROWS};
use scenes::worked::{self, with};
use scenes::{scene, Profile, Rng};
use std::process::ExitCode;

const SCENES: usize = 2000;
const CHANGES: usize = 20;

/// The cases of paper 01.
fn worked_files(compared: &mut Compared, rng: &mut Rng) -> Result<(), Disagreement> {
    for case in worked::cases() {
        compared.known(&case.about, &case.file, (case.number, case.place), rng)?;
    }
    for case in worked::counted() {
        let answers = compared.file(&case.file, rng)?;
        if answers
            .iter()
            .any(|answer| (answer.number, answer.counts) != (0, case.counts))
        {
            return disagree(
                format!("{}: both answer {answers:?}", case.about),
                &case.file,
            );
        }
    }
    Ok(())
}

/// Small files with each byte changed in many ways, and cut at each place.
fn every_byte(compared: &mut Compared, rng: &mut Rng) -> Result<(), Disagreement> {
    let mut files = vec![worked::h_and_unknown(), worked::t(), worked::brush(2)];
    while files.len() < 25 {
        let file = scene(rng, Profile::SMALL).file;
        if file.len() < 700 {
            files.push(file);
        }
    }
    for file in files {
        for place in 0..file.len() {
            change_byte(compared, rng, &file, place)?;
            compared.file(&file[..place], rng)?;
            if place >= 12 {
                let cut = file[..place].to_vec();
                compared.file(&with(cut, 4, place as u32 - 8), rng)?;
            }
        }
    }
    Ok(())
}

/// The byte at this place one more, one less, small, at an edge, or with one
/// bit changed.
fn change_byte(
    compared: &mut Compared,
    rng: &mut Rng,
    file: &[u8],
    place: usize,
) -> Result<(), Disagreement> {
    let old = file[place];
    let near = [old.wrapping_add(1), old.wrapping_sub(1)];
    let edges = [0, 1, 2, 4, 8, 9, 0x7F, 0x80, 0xFE, 0xFF];
    let bits = [1, 2, 4, 8, 0x20, 0x40].map(|bit| old ^ bit);
    let mut changed = file.to_vec();
    for byte in near.into_iter().chain(edges).chain(bits) {
        changed[place] = byte;
        compared.file(&changed, rng)?;
    }
    Ok(())
}

/// Generated files, one fault aimed at after the other, and changes without
/// regard to the outcome.
fn generated(compared: &mut Compared, rng: &mut Rng) -> Result<(), Disagreement> {
    for _ in 0..SCENES {
        let profile = Profile::any(rng);
        let scene = scene(rng, profile);
        compared.known("generated", &scene.file, (0, 0), rng)?;
        for damaged in aimed(&scene, rng) {
            let answer = (damaged.number, damaged.place);
            compared.known(damaged.aim, &damaged.file, answer, rng)?;
        }
        for _ in 0..CHANGES {
            compared.file(&changed(&scene, rng), rng)?;
        }
    }
    Ok(())
}

/// Generated files with colours outside 0 to 1: refused in strict mode only. In
/// an item that is cut they are not looked at.
fn colours(compared: &mut Compared, rng: &mut Rng) -> Result<(), Disagreement> {
    for _ in 0..SCENES {
        let profile = Profile::any(rng);
        let scene = scene(rng, profile);
        for _ in 0..5 {
            if let Some((file, place)) = outside(&scene, rng) {
                compared.known_in("colours", &file, [(6, place), (0, 0)], rng)?;
            }
            if let Some((file, place)) = outside_and_cut(&scene, rng) {
                compared.known("colours of a cut item", &file, (5, place), rng)?;
            }
        }
    }
    Ok(())
}

/// Generated files with one row too many, and the same with a fault behind
/// those rows: 10 comes after all faults of the file.
fn too_many_rows(compared: &mut Compared, rng: &mut Rng) -> Result<(), Disagreement> {
    for _ in 0..3 {
        let mut tree = scene(rng, Profile::SMALL).tree;
        let Some(root) = tree.chunks.iter_mut().find(|chunk| &chunk.tag == b"NODE") else {
            continue;
        };
        root.chunks.push(node_of(vec![keys(MOST_ROWS + 1)]));
        compared.known("2,097,152 keys", &tree.bytes(), (10, 10), rng)?;
        let end = tree.size() as u32;
        tree.tail = rng.bytes(5);
        compared.known("spare bytes behind", &tree.bytes(), (3, end), rng)?;
    }
    Ok(())
}

/// Every order of up to three chunks inside a BB3D, a NODE and a MESH.
fn nesting(compared: &mut Compared, rng: &mut Rng) -> Result<(), Disagreement> {
    for order in orders(3) {
        compared.file(&order.file, rng)?;
    }
    Ok(())
}

const GROUPS: [(&str, Group); 6] = [
    ("cases of paper 01", worked_files),
    ("every byte of small files", every_byte),
    ("every order of a few chunks", nesting),
    ("generated and damaged files", generated),
    ("colours outside 0 to 1", colours),
    ("too many rows", too_many_rows),
];

fn main() -> ExitCode {
    run(&GROUPS, &[0, 1, 2, 3, 4, 5, 6, 7, 8, 9, 10, 11])
}
