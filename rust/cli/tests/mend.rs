//! `mend`: lines a planner reads, statuses, and what is written.

mod common;

use common::{fresh, in_shell, names_in, run, run_on_full_disk};
use scenes::mendable::mendable;
use scenes::worked::{brush, t, with};
use scenes::{scene, Profile, Rng};
use std::fs;
use std::path::Path;

fn put(folder: &Path, name: &str, bytes: &[u8]) {
    fs::write(folder.join(name), bytes).unwrap();
}

fn get(folder: &Path, name: &str) -> Vec<u8> {
    fs::read(folder.join(name)).unwrap()
}

#[test]
fn mends_in_a_planners_words() {
    let folder = fresh("mends");
    let mut bad = with(with(t(), 69, 5), 141, 3);
    bad.extend(b"abc");
    put(&folder, "bad", &with(bad, 4, 7));
    let lines = "\
byte 4: length of the scene (BB3D) is not the file's, 7 -> 133
byte 69: brush that is not there, 5 -> none
byte 141: triangle 3 1 2 with a vertex that is not there, taken out
byte 153: 3 spare bytes taken out
";
    let told = run(&folder, &["mend", "bad", "good", "--report", "report"]);
    told.is(1, lines);
    assert_eq!(told.err, "kelompuris: bad: 4 faults mended\n");
    run(&folder, &["check", "good"]).is(
        0,
        "good: accepted, version 1, 1 node, 1 mesh, 3 vertices, 1 triangle set\n",
    );
    let report = get(&folder, "report");
    assert_eq!(report[..12], [4, 1, 4, 4, 7, 0, 0, 0, 133, 0, 0, 0]);
    run(&folder, &["mend", "good", "again"]).is(0, "");
    assert_eq!(get(&folder, "again"), get(&folder, "good"));

    put(&folder, "brush", &with(brush(2), 96, 7));
    let line = "byte 96: texture that is not there, 7 -> none\n";
    let told = run(&folder, &["mend", "brush", "brush_mended"]);
    told.is(1, line);
    assert_eq!(told.err, "kelompuris: brush: 1 fault mended\n");
    // The brush behind a first length that ends before it.
    let file = with(with(brush(2), 96, 7), 4, 9);
    put(&folder, "short", &file);
    let told = run(&folder, &["mend", "short", "short_mended"]);
    assert!(told.out.ends_with(line), "{told:?}");
}

#[test]
fn bytes_behind_a_right_scene() {
    let folder = fresh("behind");
    put(&folder, "bad", &[t(), b"x".to_vec()].concat());
    let lines = "\
byte 4: length of the scene (BB3D), 145, is right once the bytes behind it are taken out
byte 153: 1 spare byte taken out
";
    run(&folder, &["mend", "bad", "good"]).is(1, lines);
    assert_eq!(get(&folder, "good"), t());
}

#[test]
fn weights_that_are_taken_out() {
    let folder = fresh("weights");
    let mut kitchen = get(&folder, "kitchen.b3d");
    let bone = kitchen.windows(4).position(|tag| tag == b"BONE").unwrap();
    kitchen = with(kitchen, bone + 8 + 16, 99);
    put(&folder, "bad", &kitchen);
    let place = bone + 24;
    let line = format!("byte {place}: weight 0.75 of vertex 99, which is not there, taken out\n");
    run(&folder, &["mend", "bad", "good"]).is(1, &line);
    assert_eq!(run(&folder, &["check", "good"]).status, 0);
}

/// A broken file leaves the building without names, and nothing of it is kept on the way.
#[test]
fn mended_and_cleared() {
    let folder = fresh("mended_and_cleared");
    let mut kitchen = get(&folder, "kitchen.b3d");
    kitchen.extend(b"Kunde 4");
    put(&folder, "bad", &kitchen);
    let before = [names_in(&folder), vec!["sent".to_string()]].concat();
    run(&folder, &["clear", "bad", "sent"]).stops(1, "2 at 4");
    let line = "set -o pipefail; $0 mend bad - 2>told | $0 clear - sent; cat told; rm told";
    let told = in_shell(&folder, line, &[]);
    assert!(told.out.contains("7 spare bytes taken out"), "{told:?}");
    run(&folder, &["clear", "kitchen.b3d", "copy"]).is(0, "");
    assert_eq!(get(&folder, "sent"), get(&folder, "copy"));
    fs::remove_file(folder.join("copy")).unwrap();
    let mut before = before;
    before.sort();
    assert_eq!(names_in(&folder), before);
}

#[test]
fn a_whole_file_comes_back_as_it_was() {
    let folder = fresh("whole_file");
    for file in ["hall.b3d", "kitchen.b3d", "table.b3d"] {
        let words = ["mend", file, "out", "--report", "report", "--force"];
        run(&folder, &words).is(0, "");
        assert_eq!(get(&folder, "out"), get(&folder, file));
        assert_eq!(get(&folder, "report"), b"");
    }
}

#[test]
fn mended_as_made() {
    let folder = fresh("mended_as_made");
    let mut rng = Rng::new(8);
    for _ in 0..20 {
        let scene = scene(&mut rng, Profile::WIDE);
        let made = mendable(&scene, &mut rng, 20);
        put(&folder, "bad", &made.file);
        let words = ["mend", "bad", "out", "--report", "report", "--force"];
        let told = run(&folder, &words);
        assert_eq!(told.status, i32::from(!made.entries.is_empty()));
        assert_eq!(told.out.lines().count(), made.entries.len());
        assert!(get(&folder, "out") == made.mended);
        assert_eq!(get(&folder, "report"), made.report());
    }
}

#[test]
fn nothing_is_written_where_it_is_refused_or_fails() {
    let folder = fresh("mend_refused");
    let spare = [t(), b"abc".to_vec()].concat();
    put(&folder, "spare", &spare);
    put(&folder, "old", b"old");
    put(&folder, "cut", &with(t(), 77, 47));
    let before = names_in(&folder);
    let report = ["--report", "report"];
    run(&folder, &["mend", "cut", "out", report[0], report[1]]).stops(2, "cut: 5 at 117");
    run(&folder, &["mend", "none", "out"]).stops(2, "none");
    run(&folder, &["mend", "spare"]).stops(2, "usage");
    // The input is never written to, also under another name for it.
    for target in ["spare", "./spare"] {
        run(&folder, &["mend", "--force", "spare", target]).stops(2, "spare");
        let words = ["mend", "--force", "spare", "out", "--report", target];
        run(&folder, &words).stops(2, "spare");
    }
    let words = ["mend", "--force", "spare", "out", "--report", "./out"];
    run(&folder, &words).stops(2, "out");
    // Both files or none.
    run(&folder, &["mend", "spare", "old"]).stops(2, "--force");
    run(&folder, &["mend", "spare", "out", "--report", "old"]).stops(2, "--force");
    run(
        &folder,
        &["mend", "spare", "out", "--report", "none/report"],
    )
    .stops(2, "none/report");
    run(
        &folder,
        &["mend", "spare", "none/out", report[0], report[1]],
    )
    .stops(2, "none/out");
    run_on_full_disk(&folder, &["mend", "spare", "out", report[0], report[1]]).stops(2, "out");
    assert_eq!(names_in(&folder), before);
    assert_eq!(get(&folder, "spare"), spare);
    assert_eq!(get(&folder, "old"), b"old");
}
