//! Random valid files: reading, writing and clearing.

mod common;

use common::*;
use reference::{judge, Mode, Written};
use scenes::private::private_change;
use scenes::{scene, Profile, Rng, Scene};

/// Calls `check` with many scenes.
fn each_scene(seed: u64, count: usize, mut check: impl FnMut(&Scene, &mut Rng)) {
    let mut rng = Rng::new(seed);
    for _ in 0..count {
        let profile = Profile::any(&mut rng);
        let scene = scene(&mut rng, profile);
        check(&scene, &mut rng);
    }
}

#[test]
fn reading_gives_the_words_of_the_scene() {
    let mut rows = [0; 10];
    let mut deepest = 0;
    each_scene(1, 3000, |scene, _| {
        let sheet = sheet_of(&scene.file);
        assert_eq!(sheet, scene.sheet);
        for (sum, count) in rows.iter_mut().zip(sheet.counts) {
            *sum += count;
        }
        let depths = scene.tree.spots().into_iter().map(|spot| spot.node_depth);
        deepest = deepest.max(depths.max().unwrap_or(0));
    });
    assert!(rows.iter().all(|&sum| sum > 1000), "rows read: {rows:?}");
    assert_eq!(deepest, 16);
}

#[test]
fn writing_and_reading_back() {
    each_scene(2, 2000, |scene, _| {
        let file = written(&scene.sheet, scene.file.len() + SPARE);
        assert!(file.len() <= scene.file.len());
        assert!(sheet_of(&file).same_but_name_places(&scene.sheet));
        let own = written(&scene.sheet.with_own_names(), file.len());
        assert_eq!(own, file, "names elsewhere");
        assert_eq!(written(&sheet_of(&file), file.len()), file, "twice");
    });
}

#[test]
fn writing_to_a_short_output() {
    each_scene(3, 300, |scene, rng| {
        let size = written(&scene.sheet, scene.file.len()).len();
        for short in [0, rng.below(size), size - 1] {
            let (answer, out) = write_to(&scene.sheet, short);
            assert_eq!(answer, too_short(size));
            assert!(untouched(&out));
        }
    });
}

fn too_short(size: usize) -> Written {
    Written {
        number: 11,
        place: size as u32,
        size: 0,
    }
}

#[test]
fn clearing() {
    each_scene(4, 2000, |scene, _| {
        let copy = cleared(&scene.file);
        assert!(copy.len() <= scene.file.len());
        let bare = scene.sheet.without_names();
        assert!(sheet_of(&copy).same_but_name_places(&bare));
        assert_eq!(copy, written(&bare, copy.len()), "as the writer");
        assert_eq!(cleared(&copy), copy, "cleared again");
        let (answer, out) = clear_to(&scene.file, copy.len() - 1);
        assert_eq!(answer, too_short(copy.len()));
        assert!(untouched(&out));
    });
}

#[test]
fn private_parts_do_not_show_in_the_copy() {
    let mut differing = 0;
    each_scene(5, 2000, |scene, rng| {
        let other = private_change(&scene.tree, rng);
        assert_eq!(judge(Mode::Strict, &other).number, 0);
        assert_eq!(cleared(&other), cleared(&scene.file));
        differing += usize::from(other != scene.file);
    });
    assert!(differing > 1900, "files that differ: {differing}");
}

#[test]
fn short_lent_tables() {
    each_scene(6, 300, |scene, rng| {
        let full = sizes(&scene.sheet.counts);
        let table = rng.below(10);
        if full[table] == 0 {
            return;
        }
        let mut size = full;
        size[table] = rng.below(full[table]);
        let mut tables = lend(size);
        let answer = read_into(&scene.file, &mut tables);
        assert_eq!(answer, refusal(11, table as u32 + 1));
        assert_eq!(tables, lend(size));
    });
}

#[test]
fn scenes_are_deterministic() {
    let make = || scene(&mut Rng::new(7), Profile::WIDE).file;
    assert_eq!(make(), make());
    assert_ne!(make(), scene(&mut Rng::new(8), Profile::WIDE).file);
}
