//! Holds the proved comparison to the reference, and both to the lists that pairs are
//! made with: pairs that differ in a few cells or in the twelve numbers, in what
//! stands where, in names only, in any way; refused files, first and second.

use compare::{disagree, run, Compared, Disagreement, Group};
use scenes::change::changed;
use scenes::damage::aimed;
use scenes::pairs::{few_cells, one_less, other_numbers, swapped, Pair};
use scenes::private::private_change;
use scenes::rows::{file_with_rows, MOST_ROWS};
use scenes::worked::cases;
use scenes::{scene, Profile, Rng};
use std::process::ExitCode;

/// Holds both to the list that a pair is made with.
fn known(compared: &mut Compared, rng: &mut Rng, pair: &Pair) -> Result<(), Disagreement> {
    match compared.pair(&pair.first, &pair.second, rng)? {
        Ok(list) if list == pair.list => Ok(()),
        answer => {
            let expected = &pair.list;
            let about = format!("both answer {answer:?}, the pair was made with {expected:?}");
            disagree(about, &pair.second)
        }
    }
}

fn small_changes(compared: &mut Compared, rng: &mut Rng) -> Result<(), Disagreement> {
    for _ in 0..3000 {
        let profile = Profile::any(rng);
        let most = rng.pick(&[1, 3, 10, 100]);
        let pair = few_cells(rng, profile, most);
        known(compared, rng, &pair)?;
    }
    Ok(())
}

fn numbers(compared: &mut Compared, rng: &mut Rng) -> Result<(), Disagreement> {
    for round in 0..1500 {
        let profile = Profile::any(rng);
        let pair = match round % 2 {
            0 => other_numbers(rng, profile),
            _ => one_less(rng, profile),
        };
        known(compared, rng, &pair)?;
    }
    Ok(())
}

/// The same file twice, other private parts, chunks changed for each other.
fn other_places(compared: &mut Compared, rng: &mut Rng) -> Result<(), Disagreement> {
    for _ in 0..1000 {
        let profile = Profile::any(rng);
        let scene = scene(rng, profile);
        let same = compared.pair(&scene.file, &scene.file, rng)?;
        if same != Ok(Vec::new()) {
            return disagree(format!("a file and itself: {same:?}"), &scene.file);
        }
        compared
            .pair(&scene.file, &private_change(&scene.tree, rng), rng)?
            .ok();
        if let Some(other) = swapped(&scene, rng) {
            compared.pair(&scene.file, &other, rng)?.ok();
        }
    }
    Ok(())
}

/// Files with faults, and files changed in any way, as first and as second.
fn faults(compared: &mut Compared, rng: &mut Rng) -> Result<(), Disagreement> {
    for _ in 0..300 {
        let profile = Profile::any(rng);
        let scene = scene(rng, profile);
        let mut files: Vec<Vec<u8>> = aimed(&scene, rng).into_iter().map(|bad| bad.file).collect();
        files.extend((0..5).map(|_| changed(&scene, rng)));
        for pair in files.windows(2) {
            compared.pair(&pair[0], &scene.file, rng)?.ok();
            compared.pair(&scene.file, &pair[0], rng)?.ok();
            compared.pair(&pair[0], &pair[1], rng)?.ok();
        }
    }
    Ok(())
}

fn papers(compared: &mut Compared, rng: &mut Rng) -> Result<(), Disagreement> {
    let files: Vec<Vec<u8>> = cases().into_iter().map(|case| case.file).collect();
    let small = files.iter().filter(|file| file.len() < 2000);
    for first in small.clone() {
        for second in small.clone() {
            compared.pair(first, second, rng)?.ok();
        }
    }
    let large: Vec<&Vec<u8>> = files.iter().filter(|file| file.len() >= 2000).collect();
    for pair in large.windows(2) {
        compared.pair(pair[0], pair[1], rng)?.ok();
    }
    Ok(())
}

/// Rows with numbers of one to three groups.
fn many_rows(compared: &mut Compared, rng: &mut Rng) -> Result<(), Disagreement> {
    for (table, rows) in [(1, 20_000), (5, 20_000), (7, 20_000), (10, MOST_ROWS)] {
        let first = file_with_rows(table, rows);
        let mut second = first.clone();
        for _ in 0..40 {
            let start = first.len() * 3 / 4;
            let at = rng.between(start, first.len() - 5);
            second[at] ^= 1;
        }
        compared.pair(&first, &second, rng)?.ok();
    }
    Ok(())
}

fn main() -> ExitCode {
    let groups: [(&str, Group); 6] = [
        ("cells", small_changes),
        ("numbers", numbers),
        ("places", other_places),
        ("faults", faults),
        ("cases of paper 01", papers),
        ("many rows", many_rows),
    ];
    run(&groups, &[0, 1, 2, 3, 4, 5, 6, 7, 8, 9, 10, 11])
}
