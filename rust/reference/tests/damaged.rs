//! Damaged files: the refusals that are aimed at, and consistency of all
//! functions on files changed at random.

mod common;

use common::*;
use reference::{judge, list, Mode};
use scenes::change::changed;
use scenes::damage::aimed;
use scenes::{scene, Profile, Rng};
use std::collections::BTreeMap;

#[test]
fn aimed_refusals() {
    let mut rng = Rng::new(11);
    let mut met: BTreeMap<&str, usize> = BTreeMap::new();
    for _ in 0..1500 {
        let profile = Profile::any(&mut rng);
        let scene = scene(&mut rng, profile);
        for damaged in aimed(&scene, &mut rng) {
            let (number, place) = (damaged.number, damaged.place);
            assert_refused(&damaged.file, number, place, damaged.aim);
            *met.entry(damaged.aim).or_default() += 1;
        }
    }
    println!("{met:#?}");
    assert_eq!(met.len(), 18 + 6, "kinds of damage");
    assert!(met.values().all(|&count| count >= 20), "{met:?}");
}

#[test]
fn random_changes() {
    let mut rng = Rng::new(12);
    let mut met = [0; 11];
    for _ in 0..3000 {
        let profile = Profile::any(&mut rng);
        let scene = scene(&mut rng, profile);
        for _ in 0..10 {
            let file = changed(&scene, &mut rng);
            for mode in MODES {
                let answer = judge(mode, &file);
                met[answer.number as usize] += 1;
                match answer.number {
                    0 => assert_accepted(mode, &file),
                    number => assert_refused_in(mode, &file, number, answer.place, "changed"),
                }
            }
            check_clearing(&file);
            check_listing(&file);
        }
    }
    println!("numbers met by random changes: {met:?}");
    assert!((2..=9).all(|number| met[number] > 0), "{met:?}");
    assert!(met[0] > 1000, "{met:?}");
}

/// A changed file that is accepted can be written.
fn assert_accepted(mode: Mode, file: &[u8]) {
    let sheet = sheet_in(mode, file);
    let written = accepted_bytes(write_in(mode, &sheet, file.len()));
    assert!(sheet_in(mode, &written).same_but_name_places(&sheet));
}

/// The clearer refuses what the lenient mode refuses, and copies the rest.
fn check_clearing(file: &[u8]) {
    let answer = judge(Mode::Lenient, file);
    if answer.number != 0 {
        let (refused, out) = clear_to(file, 64);
        assert_eq!(
            (refused.number, refused.place),
            (answer.number, answer.place)
        );
        assert!(untouched(&out));
        return;
    }
    let copy = cleared(file);
    let bare = sheet_in(Mode::Lenient, file).without_names();
    assert!(sheet_in(Mode::Lenient, &copy).same_but_name_places(&bare));
    assert_eq!(cleared(&copy), copy);
}

/// The first line agrees with the judge, and there is a line for each node.
fn check_listing(file: &[u8]) {
    let answer = judge(Mode::Strict, file);
    let listing = String::from_utf8(list(file)).expect("printable");
    let lines: Vec<&str> = listing.lines().collect();
    if file.len() > 65_536 {
        assert_eq!(listing, "1 0\n");
        return;
    }
    assert_eq!(lines[0], format!("{} {}", answer.number, answer.place));
    let expected = match answer.number {
        0 => 3 + answer.counts[2] as usize,
        _ => 1,
    };
    assert_eq!(lines.len(), expected);
    assert!(listing.ends_with('\n'));
}
