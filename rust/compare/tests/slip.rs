//! Compares the proved reader and writers of slips with the reference: all
//! slips of up to three bytes and of up to three numbers, all pairs of bytes at
//! each number, many slips that are cut, changed or too long, numbers at their
//! limits, and files.

use compare::{disagree, run, Call, Compared, Disagreement, Group};
use scenes::change::changed;
use scenes::damage::aimed;
use scenes::rows::file_with_rows;
use scenes::worked;
use scenes::{scene, Profile, Rng};
use std::process::ExitCode;

/// The highest value of each number.
const HIGHEST: [u32; 12] = [
    99, 8, 2_097_151, 2_097_151, 2_097_151, 2_097_151, 2_097_151, 2_097_151, 2_097_151, 2_097_151,
    2_097_151, 2_097_151,
];

/// Bytes at which something changes.
const BYTES: [u8; 17] = [
    0x00, 0x01, 0x07, 0x08, 0x09, 0x62, 0x63, 0x64, 0x7E, 0x7F, 0x80, 0x81, 0x82, 0xBF, 0xC0, 0xFE,
    0xFF,
];

/// A number up to a highest value, often near an edge.
fn number(highest: u32, rng: &mut Rng) -> u32 {
    let edges = [
        0,
        1,
        2,
        127,
        128,
        129,
        300,
        16_383,
        16_384,
        highest - 1,
        highest,
    ];
    match rng.percent(60) {
        true => rng.pick(&edges).min(highest),
        false => rng.below(highest as usize + 1) as u32,
    }
}

fn numbers(rng: &mut Rng) -> [u32; 12] {
    HIGHEST.map(|highest| number(highest, rng))
}

/// A number's bytes, for slips that this test makes itself.
fn bytes(number: u32) -> Vec<u8> {
    match number {
        0..=0x7F => vec![number as u8],
        0x80..=0x3FFF => vec![0x80 | (number >> 7) as u8, number as u8 & 0x7F],
        _ => vec![
            0x80 | (number >> 14) as u8,
            0x80 | (number >> 7) as u8,
            number as u8 & 0x7F,
        ],
    }
}

/// The bytes of right numbers at these positions.
fn right(positions: std::ops::Range<usize>, rng: &mut Rng) -> Vec<u8> {
    let each = positions.flat_map(|position| bytes(number(HIGHEST[position], rng)));
    each.collect()
}

/// All slips of up to three bytes.
fn three_bytes(compared: &mut Compared, _: &mut Rng) -> Result<(), Disagreement> {
    for length in 0..=3 {
        for value in 0..1_u32 << (8 * length) {
            compared.slip(&value.to_le_bytes()[..length])?;
        }
    }
    Ok(())
}

/// All slips of a version at an edge, any n_texs and any two bytes after that.
fn three_numbers(compared: &mut Compared, _: &mut Rng) -> Result<(), Disagreement> {
    for version in [0, 1, 98, 99] {
        for n_texs in 0..=8 {
            for [first, second] in (0..=u16::MAX).map(u16::to_le_bytes) {
                compared.slip(&[version, n_texs, first, second])?;
            }
        }
    }
    Ok(())
}

/// All pairs of bytes, and many threes, where each number begins; then nothing,
/// or as many right numbers as belong there and one more.
fn each_number(compared: &mut Compared, rng: &mut Rng) -> Result<(), Disagreement> {
    let mut pairs: Vec<Vec<u8>> = (0..=u16::MAX).map(|two| two.to_le_bytes().into()).collect();
    for first in BYTES {
        for second in BYTES {
            pairs.extend(BYTES.map(|third| vec![first, second, third]));
        }
    }
    for position in 0..12 {
        let before = right(0..position, rng);
        let behind = [right(position..12, rng), vec![0]].concat();
        for pair in &pairs {
            let begun = [&before[..], pair].concat();
            compared.slip(&begun)?;
            compared.slip(&[&begun[..], &behind].concat())?;
        }
    }
    Ok(())
}

/// Some bytes, at least one.
fn spare_bytes(rng: &mut Rng) -> Vec<u8> {
    let count = rng.between(1, 9);
    rng.bytes(count)
}

/// Writes numbers and reads the slip back; then the slip cut at each place, with
/// bytes added, and with each byte changed.
fn there_and_back(
    compared: &mut Compared,
    numbers: &[u32; 12],
    rng: &mut Rng,
) -> Result<(), Disagreement> {
    let slip = compared.written(Call::Slip(numbers), rng)?;
    if compared.slip(&slip)?.numbers != *numbers {
        return disagree(format!("not {numbers:?}"), &slip);
    }
    if !(12..=32).contains(&slip.len()) {
        return disagree("not 12 to 32 bytes", &slip);
    }
    for cut in 0..slip.len() {
        let answer = compared.slip(&slip[..cut])?;
        if (answer.number, answer.place as usize) != (13, cut) {
            return disagree(format!("cut at {cut}: {answer:?}"), &slip);
        }
        let mut other = slip.clone();
        other[cut] = match rng.percent(50) {
            true => rng.pick(&BYTES),
            false => rng.byte(),
        };
        let read = compared.slip(&other)?;
        if read.number == 0 && compared.written(Call::Slip(&read.numbers), rng)? != other {
            return disagree("another slip of its numbers", &other);
        }
    }
    let spare = [slip.clone(), spare_bytes(rng)].concat();
    let answer = compared.slip(&spare)?;
    match (answer.number, answer.place as usize) == (13, slip.len()) {
        true => Ok(()),
        false => disagree(format!("spare bytes: {answer:?}"), &spare),
    }
}

/// Numbers in their ranges, then with one out of its range, or more.
fn written(compared: &mut Compared, rng: &mut Rng) -> Result<(), Disagreement> {
    there_and_back(compared, &[0; 12], rng)?;
    there_and_back(compared, &HIGHEST, rng)?;
    for _ in 0..20_000 {
        let right = numbers(rng);
        there_and_back(compared, &right, rng)?;
        let mut wrong = right;
        let position = rng.below(12);
        let more = rng.pick(&[1, 2, 128, 16_384, 2_097_151, u32::MAX / 2]);
        wrong[position] = HIGHEST[position] + more;
        if rng.percent(30) {
            wrong[rng.between(position, 11)] = rng.word() | 0x8000_0000;
        }
        match compared.call(Call::Slip(&wrong), rng)? {
            Err(answer) if (answer.number, answer.place as usize) == (13, position) => {}
            answer => return disagree(format!("{wrong:?}: {answer:?}"), &[]),
        }
    }
    Ok(())
}

/// The slip of a file: its refusal, or the numbers that the judge gives.
fn file(compared: &mut Compared, file: &[u8], rng: &mut Rng) -> Result<(), Disagreement> {
    compared.files += 1;
    let answer = kelompuris::judge(kelompuris::Mode::Lenient, file);
    match compared.call(Call::SlipOf(file), rng)? {
        Err(refusal) => match (refusal.number, refusal.place) == (answer.number, answer.place) {
            true => Ok(()),
            false => disagree(format!("{refusal:?}, not {answer:?}"), file),
        },
        Ok(slip) => {
            let numbers = compared.slip(&slip)?.numbers;
            let (head, counts) = ([answer.version, answer.n_texs], answer.counts);
            if numbers[..2] != head || numbers[2..] != counts {
                return disagree(format!("{numbers:?}, not {answer:?}"), file);
            }
            match compared.written(Call::Slip(&numbers), rng)? == slip {
                true => Ok(()),
                false => disagree("another slip of its numbers", file),
            }
        }
    }
}

/// Worked, generated and damaged files, and files with many rows.
fn files(compared: &mut Compared, rng: &mut Rng) -> Result<(), Disagreement> {
    for case in worked::cases() {
        file(compared, &case.file, rng)?;
    }
    for _ in 0..1000 {
        let profile = Profile::any(rng);
        let scene = scene(rng, profile);
        file(compared, &scene.file, rng)?;
        for damaged in aimed(&scene, rng) {
            file(compared, &damaged.file, rng)?;
        }
        for _ in 0..5 {
            file(compared, &changed(&scene, rng), rng)?;
        }
    }
    for table in 1..=10 {
        for rows in [127, 128, 16_383, 16_384] {
            file(compared, &file_with_rows(table, rows), rng)?;
        }
    }
    Ok(())
}

const GROUPS: [(&str, Group); 5] = [
    ("slips of three bytes", three_bytes),
    ("slips of three numbers", three_numbers),
    ("bytes at each number", each_number),
    ("numbers there and back", written),
    ("slips of files", files),
];

fn main() -> ExitCode {
    run(&GROUPS, &[0, 1, 2, 3, 4, 5, 6, 7, 8, 9, 10, 11, 13])
}
