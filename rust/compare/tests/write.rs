//! Compares the proved writer with the reference on the tables of generated
//! files, as read and damaged, and prints how often each number was met.

use compare::{disagree, run, sheet_of, Call, Compared, Disagreement, Group};
use reference::Mode;
use scenes::colour::outside;
use scenes::rows::MOST_ROWS;
use scenes::sheet::ROW_WORDS;
use scenes::words::{each_cell, each_header_word, each_name_byte, each_slice_length, reshaped};
use scenes::worked;
use scenes::{scene, Profile, Rng, Sheet};
use std::process::ExitCode;

const MODES: [Mode; 2] = [Mode::Strict, Mode::Lenient];

/// Files read and written, and read again, in both modes: the same words and
/// names. Where the names stand does not matter, and a file written is written
/// as itself. With a colour outside 0 to 1 the strict writer answers 12.
fn read_and_written(compared: &mut Compared, rng: &mut Rng) -> Result<(), Disagreement> {
    for _ in 0..2000 {
        let profile = Profile::any(rng);
        let scene = scene(rng, profile);
        for mode in MODES {
            read_and_write(compared, mode, &scene.file, rng)?;
        }
        if let Some((file, _)) = outside(&scene, rng) {
            read_and_write(compared, Mode::Lenient, &file, rng)?;
            let sheet = sheet_of(Mode::Lenient, &file)?;
            match compared.call(Call::Write(Mode::Strict, &sheet), rng)? {
                Err(refusal) if (refusal.number, refusal.place) == (12, 0) => {}
                given => return disagree(format!("strict: {:?}", given.err()), &file),
            }
        }
    }
    for case in worked::cases() {
        if case.number == 0 {
            read_and_write(compared, Mode::Strict, &case.file, rng)?;
        }
    }
    Ok(())
}

fn read_and_write(
    compared: &mut Compared,
    mode: Mode,
    file: &[u8],
    rng: &mut Rng,
) -> Result<(), Disagreement> {
    compared.files += 1;
    let sheet = sheet_of(mode, file)?;
    let written = compared.written(Call::Write(mode, &sheet), rng)?;
    let again = sheet_of(mode, &written)?;
    if written.len() > file.len() {
        return disagree("longer than the file read", file);
    }
    if !again.same_but_name_places(&sheet) {
        return disagree("other words or names after writing", file);
    }
    for same in [&sheet.with_own_names(), &again] {
        if compared.written(Call::Write(mode, same), rng)? != written {
            return disagree("other bytes with the names elsewhere", file);
        }
    }
    Ok(())
}

/// Small sound tables, with the names in the file or in bytes of their own.
fn small(rng: &mut Rng) -> Sheet {
    let sheet = scene(rng, Profile::SMALL).sheet;
    match rng.percent(30) {
        true => sheet,
        false => sheet.with_own_names(),
    }
}

/// Writes all tables that `each` shows, in both modes.
fn write_each(
    compared: &mut Compared,
    rng: &mut Rng,
    each: impl FnOnce(&mut Rng, &mut dyn FnMut(&Sheet)),
) -> Result<(), Disagreement> {
    let mut sizes = rng.clone();
    let mut result = Ok(());
    each(rng, &mut |sheet| {
        for mode in MODES {
            if result.is_ok() {
                let called = compared.call(Call::Write(mode, sheet), &mut sizes);
                result = called.map(drop);
            }
        }
    });
    result
}

fn each_word_changed(compared: &mut Compared, rng: &mut Rng) -> Result<(), Disagreement> {
    for _ in 0..60 {
        let sheet = small(rng);
        write_each(compared, rng, |rng, visit| each_cell(&sheet, rng, visit))?;
    }
    Ok(())
}

/// Each count, the version and n_texs changed, and each length of a slice.
fn each_header_changed(compared: &mut Compared, rng: &mut Rng) -> Result<(), Disagreement> {
    for _ in 0..200 {
        let sheet = small(rng);
        write_each(compared, rng, |rng, visit| {
            each_header_word(&sheet, rng, visit)
        })?;
        write_each(compared, rng, |_, visit| each_slice_length(&sheet, visit))?;
    }
    Ok(())
}

fn each_name_byte_changed(compared: &mut Compared, rng: &mut Rng) -> Result<(), Disagreement> {
    for _ in 0..100 {
        let sheet = small(rng);
        write_each(compared, rng, |_, visit| each_name_byte(&sheet, visit))?;
    }
    Ok(())
}

/// Changes of more than one word.
fn rows_moved(compared: &mut Compared, rng: &mut Rng) -> Result<(), Disagreement> {
    for _ in 0..2000 {
        let profile = rng.pick(&[Profile::SMALL, Profile::WIDE, Profile::DEEP]);
        let sheet = scene(rng, profile).sheet.with_own_names();
        write_each(compared, rng, |rng, visit| {
            for _ in 0..10 {
                if let Some(changed) = reshaped(&sheet, rng) {
                    visit(&changed);
                }
            }
        })?;
    }
    Ok(())
}

/// Tables of so many nodes inside the first, all with the same name.
fn nodes(rows: usize, name_length: usize) -> Sheet {
    let mut sheet = Sheet::default();
    for parent in [0xFFFF_FFFF].into_iter().chain(vec![0; rows - 1]) {
        let mut row = [0; ROW_WORDS[2]];
        row[1] = name_length as u32;
        row[2] = parent;
        sheet.tables[2].extend(row);
    }
    sheet.count_rows();
    sheet.count_branches();
    sheet.names = vec![b'n'; name_length];
    sheet
}

/// Tables of a root with one list of so many keys without parts.
fn keys(rows: usize) -> Sheet {
    let mut sheet = nodes(1, 0);
    sheet.tables[8] = vec![0, 0, 0, rows as u32];
    let key = [0; ROW_WORDS[9]];
    sheet.tables[9] = key.repeat(rows);
    sheet.count_rows();
    sheet
}

/// Tables at the limits of rows and of the file's size, and past them. Both are
/// held to the answer.
fn limits(compared: &mut Compared, rng: &mut Rng) -> Result<(), Disagreement> {
    const LONGEST: usize = 16_777_216 - (12 + 8 + 1 + 40);
    let cases = [
        (nodes(1, LONGEST), Some(16_777_216)),
        (nodes(1, LONGEST + 1), None),
        (nodes(16_384, 3), Some(12 + 16_384 * 52)),
        (nodes(16_384, 2000), None),
        (keys(MOST_ROWS), Some(73 + 4 * MOST_ROWS)),
        (keys(MOST_ROWS + 1), None),
    ];
    for (sheet, size) in cases {
        let written = compared.call(Call::Write(Mode::Strict, &sheet), rng)?;
        if written.ok().map(|bytes| bytes.len()) != size {
            return disagree(format!("not of size {size:?}"), &sheet.names);
        }
    }
    Ok(())
}

const GROUPS: [(&str, Group); 6] = [
    ("read and written", read_and_written),
    ("each word changed", each_word_changed),
    ("each count and length changed", each_header_changed),
    ("each byte of the names changed", each_name_byte_changed),
    ("rows moved", rows_moved),
    ("limits", limits),
];

fn main() -> ExitCode {
    run(&GROUPS, &[0, 11, 12])
}
