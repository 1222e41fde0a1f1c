//! Holds proved mending to the reference, and both to the mended files and reports
//! that damaged files are made with: faults of the four kinds, several at once and
//! inside each other, with a fault of another kind beside them, and any changes.

use compare::{disagree, run, Compared, Disagreement, Group};
use scenes::change::{byte_change, changed, word_change};
use scenes::damage::{aimed, too_large};
use scenes::mendable::{mendable, not_mendable};
use scenes::rows::{file_with_rows, MOST_ROWS};
use scenes::worked::cases;
use scenes::{scene, Profile, Rng};
use std::process::ExitCode;

fn four_kinds(compared: &mut Compared, rng: &mut Rng) -> Result<(), Disagreement> {
    for round in 0..3000 {
        let profile = Profile::any(rng);
        let scene = scene(rng, profile);
        let percent = [0, 2, 10, 30, 70][round % 5];
        let made = mendable(&scene, rng, percent);
        let expected = (made.mended.clone(), made.report());
        match compared.mend(&made.file, rng)? {
            Ok(mended) if mended == expected => {}
            answer => {
                let entries = &made.entries;
                let about = format!("both answer {answer:?}, made with {entries:?}");
                return disagree(about, &made.file);
            }
        }
        let again = compared.mend(&made.mended, rng)?;
        if again != Ok((made.mended.clone(), Vec::new())) {
            return disagree(format!("mended again: {again:?}"), &made.mended);
        }
    }
    Ok(())
}

fn another_kind(compared: &mut Compared, rng: &mut Rng) -> Result<(), Disagreement> {
    for round in 0..600 {
        let profile = Profile::any(rng);
        let scene = scene(rng, profile);
        for bad in not_mendable(&scene, rng, [0, 10, 40][round % 3]) {
            match compared.mend(&bad.file, rng)? {
                Err(refusal) if (refusal.number, refusal.place) == (bad.number, bad.place) => {}
                answer => {
                    let (aim, number, place) = (bad.aim, bad.number, bad.place);
                    let about = format!("{aim}: both answer {answer:?}, not {number} {place}");
                    return disagree(about, &bad.file);
                }
            }
        }
    }
    Ok(())
}

/// Files with one fault of any kind, and files changed in any way.
fn any_changes(compared: &mut Compared, rng: &mut Rng) -> Result<(), Disagreement> {
    for _ in 0..1500 {
        let profile = Profile::any(rng);
        let scene = scene(rng, profile);
        for bad in aimed(&scene, rng) {
            compared.mend(&bad.file, rng)?.ok();
        }
        let made = mendable(&scene, rng, 20).file;
        for file in [
            changed(&scene, rng),
            changed(&scene, rng),
            byte_change(&made, rng),
            word_change(&made, rng),
        ] {
            compared.mend(&file, rng)?.ok();
        }
    }
    Ok(())
}

fn papers(compared: &mut Compared, rng: &mut Rng) -> Result<(), Disagreement> {
    for case in cases() {
        compared.mend(&case.file, rng)?.ok();
    }
    Ok(())
}

/// Files at the limits of size and rows, and many things to mend.
fn large(compared: &mut Compared, rng: &mut Rng) -> Result<(), Disagreement> {
    compared.mend(&too_large().file, rng)?.ok();
    for rows in [MOST_ROWS, MOST_ROWS + 1] {
        let file = file_with_rows(10, rows);
        compared.mend(&file, rng)?.ok();
        let mut spoiled = file.clone();
        spoiled[4] ^= 1;
        compared.mend(&spoiled, rng)?.ok();
    }
    for table in [7, 8] {
        // Every tenth byte of the last rows: most of them name no vertex.
        let mut file = file_with_rows(table, 100_000);
        let start = file.len() - 700_000;
        for at in (start..file.len()).step_by(10) {
            file[at] = 9;
        }
        compared.mend(&file, rng)?.ok();
    }
    Ok(())
}

fn main() -> ExitCode {
    let groups: [(&str, Group); 5] = [
        ("four kinds", four_kinds),
        ("another kind", another_kind),
        ("any changes", any_changes),
        ("cases of paper 01", papers),
        ("large files", large),
    ];
    run(&groups, &[0, 1, 2, 3, 4, 5, 6, 8, 9, 10, 11])
}
