//! `slip`.

mod common;

use common::{fresh, names_in, run};
use scenes::worked::{self, with};
use scenes::{scene, Profile, Rng};
use std::fs;

#[test]
fn slips_of_the_samples() {
    let folder = fresh("slips");
    let samples: [(&str, [u8; 12], &str); 3] = [
        (
            "hall.b3d",
            [1, 0, 0, 0, 1, 0, 0, 0, 0, 0, 0, 0],
            "0 0\n1 0\n0 0 1 0 0 0 0 0 0 0\n",
        ),
        (
            "table.b3d",
            [1, 0, 0, 0, 1, 1, 3, 1, 1, 0, 0, 0],
            "0 0\n1 0\n0 0 1 1 3 1 1 0 0 0\n",
        ),
        (
            "kitchen.b3d",
            [1, 2, 3, 3, 6, 2, 12, 3, 6, 6, 3, 4],
            "0 0\n1 2\n3 3 6 2 12 3 6 6 3 4\n",
        ),
    ];
    for (file, slip, shown) in samples {
        run(&folder, &["slip", "--force", file, "slip"]).is(0, "");
        assert_eq!(fs::read(folder.join("slip")).unwrap(), slip);
        run(&folder, &["slip", "--show", "slip"]).is(0, shown);
    }
}

#[test]
fn a_slip_shows_the_first_lines_of_the_list() {
    let folder = fresh("slip_and_list");
    let mut rng = Rng::new(23);
    let mut files: Vec<Vec<u8>> = (0..20)
        .map(|_| scene(&mut rng, Profile::WIDE).file)
        .collect();
    files.push(scenes::rows::file_with_rows(5, 16_383));
    for file in files {
        fs::write(folder.join("f"), &file).unwrap();
        run(&folder, &["slip", "--force", "f", "slip"]).is(0, "");
        let listed = run(&folder, &["list", "f"]).out;
        let first: Vec<&str> = listed.lines().take(3).collect();
        let shown = format!("{}\n", first.join("\n"));
        run(&folder, &["slip", "--show", "slip"]).is(0, &shown);
    }
}

#[test]
fn a_refused_file_has_no_slip() {
    let folder = fresh("no_slip");
    fs::write(folder.join("bad"), with(worked::t(), 69, 0)).unwrap();
    let before = names_in(&folder);
    let words = "bad: 7 at 69: an id that names nothing";
    run(&folder, &["slip", "bad", "new"]).stops(1, words);
    assert_eq!(names_in(&folder), before);
}

#[test]
fn a_refused_slip_shows_its_place() {
    let folder = fresh("bad_slip");
    let long = [0; 13];
    let cases: [(&[u8], &str); 4] = [
        (&[1, 0, 0x81], "13 3\n"),
        (&[1, 0, 0x80, 5], "13 2\n"),
        (&[100], "13 0\n"),
        (&long, "13 12\n"),
    ];
    for (slip, line) in cases {
        fs::write(folder.join("s"), slip).unwrap();
        let shown = run(&folder, &["slip", "--show", "s"]);
        shown.is(1, line);
        assert!(shown.err.contains("s: 13 at "), "{shown:?}");
    }
}
