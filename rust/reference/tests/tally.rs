//! Every refusal number from 1 to 12 is met by generated input.

mod common;

use common::*;
use reference::{judge, Mode};
use scenes::change::changed;
use scenes::damage::{aimed, too_large};
use scenes::rows::{file_with_rows, MOST_ROWS};
use scenes::words::{each_cell, reshaped};
use scenes::{scene, Profile, Rng, Scene};

#[test]
fn every_number_is_met() {
    let mut rng = Rng::new(31);
    let mut met = [0_usize; 13];
    for _ in 0..400 {
        let profile = Profile::any(&mut rng);
        let scene = scene(&mut rng, profile);
        files(&scene, &mut rng, &mut met);
        tables(&scene, &mut rng, &mut met);
    }
    met[judge(Mode::Strict, &too_large().file).number as usize] += 1;
    met[judge(Mode::Strict, &file_with_rows(10, MOST_ROWS + 1)).number as usize] += 1;
    for (number, count) in met.iter().enumerate() {
        println!("{number:2}: {count}");
    }
    assert!(met.iter().all(|&count| count > 0), "{met:?}");
}

/// Aimed damage and random changes, and lent tables that may be too short.
fn files(scene: &Scene, rng: &mut Rng, met: &mut [usize; 13]) {
    let mut all = vec![scene.file.clone()];
    all.extend(aimed(scene, rng).into_iter().map(|damaged| damaged.file));
    all.extend((0..10).map(|_| changed(scene, rng)));
    for file in all {
        let mut lent = lend([4000; 10]);
        met[read_into(&file, &mut lent).number as usize] += 1;
    }
}

/// Damaged tables, and outputs that may be too short.
fn tables(scene: &Scene, rng: &mut Rng, met: &mut [usize; 13]) {
    for _ in 0..5 {
        if let Some(sheet) = reshaped(&scene.sheet, rng) {
            met[write_to(&sheet, 2000).0.number as usize] += 1;
        }
    }
    if scene.file.len() < 300 {
        each_cell(&scene.sheet, &mut rng.clone(), |sheet| {
            met[write_to(sheet, 200).0.number as usize] += 1;
        });
    }
}
