//! Hands files over in pieces and compares the close with the reader of the
//! reference, lent ample tables: small files cut at every place, generated and
//! damaged ones cut anywhere, large ones; and makes calls that are refused, with
//! states and rows that no calls lead to.

use compare::pieces::{any_number, any_record, joined, Row};
use compare::{disagree, run, Compared, Disagreement, Group};
use kelompuris::pieces::{piece, start, State, RECORDS};
use scenes::change::{byte_change, changed, cut_and_mended};
use scenes::damage::{aimed, too_large};
use scenes::nesting::orders;
use scenes::rows::{file_with_rows, MOST_ROWS};
use scenes::worked;
use scenes::{scene, Profile, Rng};
use std::process::ExitCode;

const SCENES: usize = 400;
const CHANGES: usize = 6;
const STATES: usize = 100_000;

/// Files longer than this go in large pieces only, and much longer ones among the
/// large files.
const LARGE: usize = 100_000;
const HUGE: usize = 400_000;

/// Places to cut a file at, in order: none, many or few, some of them twice.
fn cuts(file: &[u8], rng: &mut Rng) -> Vec<usize> {
    let most = rng.pick(&[0, 1, 3, 20, 100]);
    let mut ends: Vec<usize> = (0..most).map(|_| rng.below(file.len() + 1)).collect();
    if rng.percent(30) {
        ends.extend_from_within(..);
    }
    ends.sort_unstable();
    ends
}

/// The ends of pieces of this many bytes.
fn pieces_of(file: &[u8], bytes: usize) -> Vec<usize> {
    (1..)
        .map(|piece| piece * bytes)
        .take_while(|&end| end < file.len())
        .collect()
}

/// A file cut anywhere, in several ways.
fn cut_anywhere(
    compared: &mut Compared,
    file: &[u8],
    times: usize,
    rng: &mut Rng,
) -> Result<(), Disagreement> {
    compared.files += 1;
    let expected = joined(file);
    for _ in 0..times {
        compared.in_pieces(file, expected, &cuts(file, rng), rng)?;
    }
    Ok(())
}

/// A small file as one piece, byte by byte, and cut in two at each place, a piece
/// without bytes between the two.
fn cut_everywhere(compared: &mut Compared, file: &[u8], rng: &mut Rng) -> Result<(), Disagreement> {
    compared.files += 1;
    let expected = joined(file);
    compared.in_pieces(file, expected, &[], rng)?;
    compared.in_pieces(file, expected, &pieces_of(file, 1), rng)?;
    for cut in 0..=file.len() {
        compared.in_pieces(file, expected, &[cut], rng)?;
        compared.in_pieces(file, expected, &[cut, cut], rng)?;
    }
    Ok(())
}

/// The cases of paper 01.
fn worked_files(compared: &mut Compared, rng: &mut Rng) -> Result<(), Disagreement> {
    for case in worked::cases() {
        let expected = joined(&case.file);
        if (expected.number, expected.place) != (case.number, case.place) {
            return disagree(format!("{}: {expected:?}", case.about), &case.file);
        }
        match case.file.len() {
            0..=300 => cut_everywhere(compared, &case.file, rng)?,
            301..LARGE => cut_anywhere(compared, &case.file, 3, rng)?,
            LARGE.. if case.file.len() <= HUGE => {
                compared.files += 1;
                compared.in_pieces(&case.file, expected, &pieces_of(&case.file, 65_536), rng)?;
            }
            _ => {}
        }
    }
    Ok(())
}

/// Small files, accepted and with one fault, cut at every place.
fn every_cut(compared: &mut Compared, rng: &mut Rng) -> Result<(), Disagreement> {
    let mut files = 0;
    while files < 8 {
        let scene = scene(rng, Profile::SMALL);
        if scene.file.len() > 400 {
            continue;
        }
        files += 1;
        cut_everywhere(compared, &scene.file, rng)?;
        for damaged in aimed(&scene, rng) {
            if damaged.file.len() <= 400 {
                cut_everywhere(compared, &damaged.file, rng)?;
            }
        }
    }
    Ok(())
}

/// Generated files, accepted, with one fault, and changed in any way.
fn generated(compared: &mut Compared, rng: &mut Rng) -> Result<(), Disagreement> {
    for _ in 0..SCENES {
        let profile = Profile::any(rng);
        let scene = scene(rng, profile);
        cut_anywhere(compared, &scene.file, 4, rng)?;
        for damaged in aimed(&scene, rng) {
            cut_anywhere(compared, &damaged.file, 1, rng)?;
        }
        for _ in 0..CHANGES {
            cut_anywhere(compared, &changed(&scene, rng), 1, rng)?;
            cut_anywhere(compared, &byte_change(&scene.file, rng), 1, rng)?;
            cut_anywhere(compared, &cut_and_mended(&scene.file, rng), 1, rng)?;
        }
    }
    Ok(())
}

/// Every order of up to two chunks inside a BB3D, a NODE and a MESH.
fn nesting(compared: &mut Compared, rng: &mut Rng) -> Result<(), Disagreement> {
    for order in orders(2) {
        cut_anywhere(compared, &order.file, 2, rng)?;
    }
    Ok(())
}

/// Files of some MB, one with too many rows, the largest, and one byte more.
fn large(compared: &mut Compared, rng: &mut Rng) -> Result<(), Disagreement> {
    let known = [
        (file_with_rows(5, 200_000), (0, 0)),
        (file_with_rows(10, MOST_ROWS + 1), (10, 10)),
        (worked::largest(), (0, 0)),
        (too_large().file, (1, 0)),
    ];
    for (file, known) in known {
        compared.files += 1;
        let expected = joined(&file);
        if (expected.number, expected.place) != known {
            return disagree(format!("the reference answers {expected:?}"), &file[..12]);
        }
        compared.in_pieces(&file, expected, &pieces_of(&file, 65_536), rng)?;
    }
    Ok(())
}

/// A number of a state, by its place.
fn number(state: &mut State, place: usize) -> &mut usize {
    let numbers: [&mut usize; 41] = [
        &mut state.size,
        &mut state.worth,
        &mut state.letters,
        &mut state.length,
        &mut state.shut,
        &mut state.depth,
        &mut state.at,
        &mut state.fixed,
        &mut state.start,
        &mut state.index,
        &mut state.came,
        &mut state.value,
        &mut state.first,
        &mut state.second,
        &mut state.third,
        &mut state.inner.tag,
        &mut state.inner.head,
        &mut state.inner.end,
        &mut state.inner.turn,
        &mut state.inner.spent,
        &mut state.inner.level,
        &mut state.inner.first,
        &mut state.inner.second,
        &mut state.inner.third,
        &mut state.inner.count,
        &mut state.inner.told,
        &mut state.version,
        &mut state.slots,
        &mut state.textures,
        &mut state.brushes,
        &mut state.own,
        &mut state.told,
        &mut state.below,
        &mut state.nodes,
        &mut state.meshes,
        &mut state.vertices,
        &mut state.sets,
        &mut state.triangles,
        &mut state.weights,
        &mut state.lists,
        &mut state.keys,
    ];
    let count = numbers.len();
    numbers.into_iter().nth(place % count).expect("a number")
}

/// States and rows that calls led to, with some numbers changed, and such that hold
/// anything: calls end, a refused one changes nothing, and after one that was taken
/// the next is taken too.
fn any_states(compared: &mut Compared, rng: &mut Rng) -> Result<(), Disagreement> {
    let (mut taken, mut refused) = (0, 0);
    let mut file = Vec::new();
    for turn in 0..STATES {
        if turn % 100 == 0 {
            file = scene(rng, Profile::SMALL).file;
        }
        let mut row = Row::any(RECORDS, rng);
        let mut state = start();
        let read = rng.below(file.len() + 1);
        if rng.percent(80) {
            state = piece(state, row.records(), &file[..read]).state;
        }
        match rng.below(8) {
            0 => (0..41).for_each(|place| *number(&mut state, place) = any_number(rng)),
            1 => row.records()[rng.below(RECORDS)] = any_record(rng),
            2 => state.kind = rng.pick(&[0, 1, 2, 3, 4, 5, u32::MAX]),
            _ => {
                for _ in 0..rng.between(1, 2) {
                    *number(&mut state, rng.below(41)) = any_number(rng);
                }
            }
        }
        let bytes = match rng.percent(50) {
            true => file[read..].to_vec(),
            false => {
                let count = rng.below(60);
                rng.bytes(count)
            }
        };
        match compared.any_call(state, &mut row, &bytes)? {
            None => refused += 1,
            Some(next) => {
                taken += 1;
                if compared.any_call(next, &mut row, &bytes)?.is_none() {
                    return disagree(format!("{state:?}: taken, then refused"), &bytes);
                }
            }
        }
    }
    match taken > STATES / 10 && refused > STATES / 10 {
        true => Ok(()),
        false => disagree(format!("{taken} taken, {refused} refused"), &[]),
    }
}

const GROUPS: [(&str, Group); 6] = [
    ("cases of paper 01", worked_files),
    ("small files at every cut", every_cut),
    ("generated and damaged files", generated),
    ("every order of two chunks", nesting),
    ("large files", large),
    ("any states and rows", any_states),
];

fn main() -> ExitCode {
    run(&GROUPS, &[0, 1, 2, 3, 4, 5, 6, 7, 8, 9, 10, 11, 15])
}
