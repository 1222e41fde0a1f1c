//! Compares the proved clearer with the reference on worked, generated and
//! damaged files and on files that differ only in what is private, and prints
//! how often each number was met.

use compare::{disagree, run, sheet_of, Call, Compared, Disagreement, Group};
use reference::Mode;
use scenes::change::changed;
use scenes::colour::outside;
use scenes::damage::aimed;
use scenes::private::{private_change, Change, KINDS};
use scenes::rows::file_with_rows;
use scenes::worked;
use scenes::{scene, Profile, Rng};
use std::process::ExitCode;

/// Clears a file. If it is accepted in lenient mode: the copy has all words but names, is what
/// the writer makes of them, and is its own copy. The answer's number and
/// place, an output that is long enough lent.
fn clear(compared: &mut Compared, file: &[u8], rng: &mut Rng) -> Result<(u32, u32), Disagreement> {
    compared.files += 1;
    let copy = match compared.call(Call::Clear(file), rng)? {
        Ok(copy) => copy,
        Err(refusal) => return Ok((refusal.number, refusal.place)),
    };
    let bare = sheet_of(Mode::Lenient, file)?.without_names();
    if copy.len() > file.len() {
        return disagree("a copy longer than the file", file);
    }
    if !sheet_of(Mode::Lenient, &copy)?.same_but_name_places(&bare) {
        return disagree("a copy with other words or with names", file);
    }
    if compared.written(Call::Write(Mode::Lenient, &bare), rng)? != copy {
        return disagree("a copy other than the writer's", file);
    }
    match compared.written(Call::Clear(&copy), rng)? == copy {
        true => Ok((0, 0)),
        false => disagree("another copy of the copy", file),
    }
}

/// Clears, and holds both to an answer that is known.
fn known(
    compared: &mut Compared,
    about: &str,
    file: &[u8],
    answer: (u32, u32),
    rng: &mut Rng,
) -> Result<(), Disagreement> {
    match clear(compared, file, rng)? {
        given if given == answer => Ok(()),
        given => disagree(
            format!("{about}: both answer {given:?}, not {answer:?}"),
            file,
        ),
    }
}

/// The cases of paper 01, with H's copy made by hand.
fn worked_files(compared: &mut Compared, rng: &mut Rng) -> Result<(), Disagreement> {
    for case in worked::cases() {
        known(
            compared,
            &case.about,
            &case.file,
            (case.number, case.place),
            rng,
        )?;
    }
    for case in worked::counted() {
        let copy = compared.written(Call::Clear(&case.file), rng)?;
        if copy.len() != case.copy {
            let about = format!("{}: a copy of {} bytes", case.about, copy.len());
            return disagree(about, &case.file);
        }
    }
    for file in [worked::h(), worked::h_and_unknown()] {
        if compared.written(Call::Clear(&file), rng)? != worked::cleared_h() {
            return disagree("not H cleared", &file);
        }
    }
    Ok(())
}

/// Small files with each byte one more, zero, highest or with a bit changed.
fn every_byte(compared: &mut Compared, rng: &mut Rng) -> Result<(), Disagreement> {
    let mut files = vec![worked::h_and_unknown(), worked::t(), worked::brush(2)];
    while files.len() < 15 {
        let file = scene(rng, Profile::SMALL).file;
        if file.len() < 700 {
            files.push(file);
        }
    }
    for file in files {
        for place in 0..file.len() {
            let old = file[place];
            for byte in [old.wrapping_add(1), 0, 0xFF, old ^ 0x20] {
                let mut changed = file.clone();
                changed[place] = byte;
                clear(compared, &changed, rng)?;
            }
        }
    }
    Ok(())
}

/// Generated files, one fault aimed at after the other, and changes without
/// regard to the outcome.
fn generated(compared: &mut Compared, rng: &mut Rng) -> Result<(), Disagreement> {
    for _ in 0..1500 {
        let profile = Profile::any(rng);
        let scene = scene(rng, profile);
        known(compared, "generated", &scene.file, (0, 0), rng)?;
        if let Some((file, _)) = outside(&scene, rng) {
            known(compared, "colours outside 0 to 1", &file, (0, 0), rng)?;
        }
        for damaged in aimed(&scene, rng) {
            let answer = (damaged.number, damaged.place);
            known(compared, damaged.aim, &damaged.file, answer, rng)?;
        }
        for _ in 0..10 {
            clear(compared, &changed(&scene, rng), rng)?;
        }
    }
    for table in 1..=10 {
        clear(compared, &file_with_rows(table, 16_384), rng)?;
    }
    Ok(())
}

/// Files that differ in one private thing, then in all: the same copies. Each
/// must be met in many files.
fn private_parts(compared: &mut Compared, rng: &mut Rng) -> Result<(), Disagreement> {
    let mut met = [0; KINDS.len() + 1];
    for _ in 0..2000 {
        let profile = Profile::any(rng);
        let scene = scene(rng, profile);
        let copy = compared.written(Call::Clear(&scene.file), rng)?;
        let one_changed = |(_, change): &(&str, Change), rng: &mut Rng| {
            let mut tree = scene.tree.clone();
            change(&mut tree, rng);
            tree.bytes()
        };
        for (kind, count) in met.iter_mut().enumerate() {
            let other = match KINDS.get(kind) {
                Some(one) => one_changed(one, rng),
                None => private_change(&scene.tree, rng),
            };
            compared.files += 1;
            *count += usize::from(other != scene.file);
            if compared.written(Call::Clear(&other), rng)? != copy {
                return disagree(format!("{}: another copy", kind_name(kind)), &other);
            }
        }
    }
    for (kind, count) in met.into_iter().enumerate() {
        println!("{}: {count} files", kind_name(kind));
        if count < 100 {
            return disagree(format!("{}: seldom met", kind_name(kind)), &[]);
        }
    }
    Ok(())
}

fn kind_name(kind: usize) -> &'static str {
    KINDS.get(kind).map_or("all of these", |(name, _)| name)
}

const GROUPS: [(&str, Group); 4] = [
    ("cases of paper 01", worked_files),
    ("every byte of small files", every_byte),
    ("generated and damaged files", generated),
    ("private parts", private_parts),
];

fn main() -> ExitCode {
    run(&GROUPS, &[0, 1, 2, 3, 4, 5, 6, 7, 8, 9, 10, 11])
}
