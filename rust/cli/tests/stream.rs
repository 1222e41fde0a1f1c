//! `stream`.

mod common;

use common::{fresh, run, run_on};
use scenes::damage::{aimed, too_large};
use scenes::worked::{self, with};
use scenes::{scene, Profile, Rng};
use std::fs;

#[test]
fn samples_in_pieces() {
    let folder = fresh("stream_samples");
    let kitchen = fs::read(folder.join("kitchen.b3d")).unwrap();
    let shown = "0 0\n1 2\n3 3 6 2 12 3 6 6 3 4\n";
    run_on(&folder, &["stream"], &kitchen).is(0, shown);
    for most in ["1", "3", "200", "65536"] {
        run_on(&folder, &["stream", "--piece", most], &kitchen).is(0, shown);
    }
}

#[test]
fn the_first_lines_of_the_list() {
    let folder = fresh("stream_and_list");
    let mut rng = Rng::new(6);
    for _ in 0..10 {
        let scene = scene(&mut rng, Profile::WIDE);
        let mut files = vec![scene.file.clone()];
        files.extend(aimed(&scene, &mut rng).into_iter().map(|bad| bad.file));
        for file in files {
            fs::write(folder.join("f"), &file).unwrap();
            let listed = run(&folder, &["list", "f"]);
            let first: Vec<&str> = listed.out.lines().take(3).collect();
            let shown = format!("{}\n", first.join("\n"));
            let most = rng.between(1, 300).to_string();
            run_on(&folder, &["stream", "--piece", &most], &file).is(listed.status, &shown);
        }
    }
}

#[test]
fn a_refused_file_has_its_words() {
    let folder = fresh("stream_refused");
    let bad = run_on(&folder, &["stream"], &with(worked::t(), 149, 3));
    bad.is(1, "7 149\n");
    let words = "standard input: 7 at 149: an id that names nothing";
    assert!(bad.err.contains(words), "{bad:?}");
    run_on(&folder, &["stream"], b"").is(1, "1 0\n");
    run_on(&folder, &["stream", "--piece", "4096"], &too_large().file).is(1, "1 0\n");
}

#[test]
fn wrong_use() {
    let folder = fresh("stream_usage");
    for words in [
        &["stream", "hall.b3d"][..],
        &["stream", "--piece"],
        &["stream", "--piece", "0"],
        &["stream", "--piece", "65537"],
        &["stream", "--piece", "-1"],
        &["stream", "--piece", "two"],
        &["stream", "--piece", "2", "3"],
        &["stream", "--lenient"],
    ] {
        run(&folder, words).stops(2, "usage: kelompuris stream");
    }
}
