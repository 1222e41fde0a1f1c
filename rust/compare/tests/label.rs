//! Compares the proved label with the reference on files with labels made by
//! hand, on generated and damaged files, and with the tables of accepted ones.

use compare::{disagree, run, sheet_of, Compared, Disagreement, Group};
use reference::{Label, Mode};
use scenes::change::{byte_change, changed};
use scenes::damage::aimed;
use scenes::labels::labelled;
use scenes::sheet::ROW_WORDS;
use scenes::worked;
use scenes::{scene, Profile, Rng, Sheet};
use std::process::ExitCode;

const SCENES: usize = 5000;
const CHANGES: usize = 40;

/// The number of a refusal.
const NO_LABEL: u32 = 14;

/// The files with labels made by hand.
fn by_hand(compared: &mut Compared, _: &mut Rng) -> Result<(), Disagreement> {
    for case in labelled() {
        let label = compared.label(&case.file)?;
        let expected = match case.label {
            Some((name_place, name_length, vertices)) => Label {
                number: 0,
                place: 0,
                name_place,
                name_length,
                vertices,
            },
            None => refused(),
        };
        if label != expected {
            return disagree(format!("{}: both answer {label:?}", case.about), &case.file);
        }
    }
    Ok(())
}

fn refused() -> Label {
    Label {
        number: NO_LABEL,
        ..Label::default()
    }
}

/// What the tables of an accepted file say.
fn in_tables(sheet: &Sheet) -> Label {
    let Some(root) = sheet.tables[2].chunks(ROW_WORDS[2]).next() else {
        return refused();
    };
    let vertices = match root[13] {
        1 => sheet.row(3, root[14] as usize)[6] as usize,
        _ => 0,
    };
    Label {
        number: 0,
        place: 0,
        name_place: root[0] as usize,
        name_length: root[1] as usize,
        vertices,
    }
}

/// Compares; where the lenient mode accepts the file, with its tables too.
fn held(compared: &mut Compared, file: &[u8]) -> Result<(), Disagreement> {
    let label = compared.label(file)?;
    let name = kelompuris::label_name(file);
    if name != &file[label.name_place..label.name_place + label.name_length] {
        return disagree("a name that is no part of the file", file);
    }
    if reference::judge(Mode::Lenient, file).number != 0 {
        return Ok(());
    }
    match in_tables(&sheet_of(Mode::Lenient, file)?) {
        told if told == label => Ok(()),
        told => disagree(format!("label {label:?}, tables {told:?}"), file),
    }
}

/// The cases of paper 01.
fn worked_files(compared: &mut Compared, _: &mut Rng) -> Result<(), Disagreement> {
    for case in worked::cases() {
        held(compared, &case.file)?;
    }
    Ok(())
}

/// Generated files, accepted, with one fault, changed in any way, and cut.
fn generated(compared: &mut Compared, rng: &mut Rng) -> Result<(), Disagreement> {
    for _ in 0..SCENES {
        let profile = Profile::any(rng);
        let scene = scene(rng, profile);
        held(compared, &scene.file)?;
        for damaged in aimed(&scene, rng) {
            held(compared, &damaged.file)?;
        }
        for _ in 0..CHANGES {
            held(compared, &changed(&scene, rng))?;
            held(compared, &byte_change(&scene.file, rng))?;
            held(compared, &scene.file[..rng.below(scene.file.len())])?;
        }
    }
    Ok(())
}

/// Small files with each byte set to each of some values, and cut at each
/// place with the first length mended.
fn every_byte(compared: &mut Compared, rng: &mut Rng) -> Result<(), Disagreement> {
    let mut files = vec![worked::h_and_unknown(), worked::t()];
    while files.len() < 40 {
        let file = scene(rng, Profile::SMALL).file;
        if file.len() < 700 {
            files.push(file);
        }
    }
    for file in files {
        for place in 0..file.len() {
            let mut changed = file.clone();
            for byte in [0, 1, 3, 4, 5, 8, 9, 0x7F, 0x80, 0xFF, file[place] ^ 1] {
                changed[place] = byte;
                held(compared, &changed)?;
            }
            if place >= 12 {
                let cut = file[..place].to_vec();
                held(compared, &worked::with(cut, 4, place as u32 - 8))?;
            }
        }
    }
    Ok(())
}

const GROUPS: [(&str, Group); 4] = [
    ("labels by hand", by_hand),
    ("cases of paper 01", worked_files),
    ("generated and damaged files", generated),
    ("every byte of small files", every_byte),
];

fn main() -> ExitCode {
    run(&GROUPS, &[0, 14])
}
