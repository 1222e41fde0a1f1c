//! `check`, `list` and `label`.

mod common;

use common::{fresh, run};
use scenes::worked::{self, with};
use scenes::{scene, Profile, Rng};
use std::fs::{self, File};

const KITCHEN: &str = "\
0 0
1 2
3 3 6 2 12 3 6 6 3 4
cupboard
hinge
handle
worktop
lamp over the worktop
unnamed
";

#[test]
fn check_says_what_samples_hold() {
    let folder = fresh("check_samples");
    let expected = "\
hall.b3d: accepted, version 1, 1 node
table.b3d: accepted, version 1, 1 node, 1 mesh, 3 vertices, 1 triangle set, 1 triangle
kitchen.b3d: accepted, version 1, n_texs 2, 3 textures, 3 brushes, 6 nodes, 2 meshes, \
12 vertices, 3 triangle sets, 6 triangles, 6 weights, 3 key lists, 4 keys
";
    let all = ["check", "hall.b3d", "table.b3d", "kitchen.b3d"];
    run(&folder, &all).is(0, expected);
}

#[test]
fn check_answers_every_file_and_ends_with_the_worst() {
    let folder = fresh("check_worst");
    fs::write(folder.join("bad.b3d"), with(worked::t(), 149, 3)).unwrap();
    let bad = "bad.b3d: 7 at 149: an id that names nothing\n";
    let hall = "hall.b3d: accepted, version 1, 1 node\n";
    run(&folder, &["check", "bad.b3d", "hall.b3d"]).is(1, &format!("{bad}{hall}"));
    let some = run(&folder, &["check", "none.b3d", "bad.b3d", "hall.b3d"]);
    assert_eq!(some.status, 2);
    assert!(some.out.starts_with("none.b3d: "), "{some:?}");
    assert!(some.out.ends_with(&format!("{bad}{hall}")), "{some:?}");
}

#[test]
fn worked_cases_have_their_answers() {
    let folder = fresh("worked_cases");
    let path = folder.join("case.b3d");
    let cases = worked::cases();
    // Each number that a file can bring, and the largest file.
    for number in 1..=10 {
        let some = cases.iter().any(|case| case.number == number);
        assert!(some || [2, 4].contains(&number), "no case of {number}");
    }
    for case in cases {
        fs::write(&path, &case.file).unwrap();
        let listed = run(&folder, &["list", "case.b3d"]);
        let first = format!("{} {}\n", case.number, case.place);
        match case.number {
            0 => assert!(
                listed.status == 0 && listed.out.starts_with(&first),
                "{}",
                case.about
            ),
            _ => listed.is(1, &first),
        }
        let checked = run(&folder, &["check", "case.b3d"]);
        assert_eq!(
            checked.status,
            i32::from(case.number != 0),
            "{}",
            case.about
        );
        let start = match case.number {
            0 => "case.b3d: accepted, version ".to_string(),
            number => format!("case.b3d: {number} at {}: ", case.place),
        };
        assert!(
            checked.out.starts_with(&start),
            "{}: {checked:?}",
            case.about
        );
    }
}

#[test]
fn refusals_two_and_four_in_words() {
    let folder = fresh("two_and_four");
    let says = |file: Vec<u8>, words: &str| {
        fs::write(folder.join("f"), file).unwrap();
        run(&folder, &["check", "f"]).is(1, &format!("f: {words}\n"));
    };
    says(
        with(worked::h(), 0, 0),
        "2 at 0: a first tag that is not BB3D",
    );
    let length = "2 at 4: a BB3D length that is not the file size minus 8";
    says(with(worked::h(), 4, 58), length);
    let mesh = u32::from_le_bytes(*b"MESH");
    let tag = "4 at 12: a known tag not allowed here, or once too often, or out of order";
    says(with(worked::h(), 12, mesh), tag);
}

/// A file far too large to be read whole.
#[test]
fn a_file_past_the_limit_is_not_read_whole() {
    let folder = fresh("past_the_limit");
    let file = File::create(folder.join("huge.b3d")).unwrap();
    file.set_len(1 << 40).unwrap();
    let huge = run(&folder, &["list", "huge.b3d"]);
    huge.is(1, "1 0\n");
    let words = "huge.b3d: 1 at 0: a file size outside 12 to 16,777,216 bytes\n";
    run(&folder, &["check", "huge.b3d"]).is(1, words);
}

#[test]
fn list_prints_the_samples() {
    let folder = fresh("list_samples");
    let hall = "0 0\n1 0\n0 0 1 0 0 0 0 0 0 0\nHall\n";
    run(&folder, &["list", "hall.b3d"]).is(0, hall);
    let table = "0 0\n1 0\n0 0 1 1 3 1 1 0 0 0\nunnamed\n";
    run(&folder, &["list", "table.b3d"]).is(0, table);
    run(&folder, &["list", "kitchen.b3d"]).is(0, KITCHEN);
}

#[test]
fn list_prints_what_the_independent_lister_prints() {
    let folder = fresh("list_random");
    let mut rng = Rng::new(20);
    for _ in 0..30 {
        let file = scene(&mut rng, Profile::WIDE).file;
        fs::write(folder.join("f"), &file).unwrap();
        let expected = String::from_utf8(reference::list(&file)).unwrap();
        run(&folder, &["list", "f"]).is(0, &expected);
    }
}

/// The lister of paper 01 stops at 65,536 bytes; this one does not.
#[test]
fn list_takes_large_files() {
    let folder = fresh("list_large");
    let file = scenes::rows::file_with_rows(3, 16_383);
    assert!(file.len() > 65_536);
    fs::write(folder.join("f"), file).unwrap();
    let listed = run(&folder, &["list", "f"]);
    assert_eq!((listed.status, listed.out.lines().count()), (0, 3 + 16_383));
}

#[test]
fn labels() {
    let folder = fresh("labels");
    run(&folder, &["label", "hall.b3d"]).is(0, "0 0\nHall\n0\n");
    run(&folder, &["label", "table.b3d"]).is(0, "0 0\nunnamed\n3\n");
    run(&folder, &["label", "kitchen.b3d"]).is(0, "0 0\ncupboard\n8\n");
    fs::write(folder.join("bad.b3d"), with(worked::t(), 149, 3)).unwrap();
    run(&folder, &["label", "bad.b3d"]).is(0, "0 0\nunnamed\n3\n");
    fs::write(folder.join("p.b3d"), worked::p()).unwrap();
    run(&folder, &["label", "p.b3d"]).is(1, "14 0\n");
}

#[test]
fn a_label_reads_no_more_than_the_first_chunk() {
    let folder = fresh("label_reads");
    run(&folder, &["label", "/dev/zero"]).is(1, "14 0\n");
    let mut file = worked::h();
    file.extend_from_slice(b"behind");
    fs::write(folder.join("more.b3d"), file).unwrap();
    run(&folder, &["label", "more.b3d"]).is(0, "0 0\nHall\n0\n");
    for cut in 0..worked::h().len() {
        fs::write(folder.join("cut.b3d"), &worked::h()[..cut]).unwrap();
        run(&folder, &["label", "cut.b3d"]).is(1, "14 0\n");
    }
}

#[test]
fn trees() {
    let folder = fresh("trees");
    run(&folder, &["tree", "hall.b3d"]).is(0, "Hall\n");
    let kitchen = "\
cupboard: mesh of 8 vertices, 2 triangle sets, ANIM of 50 frames, 25 fps
  hinge: bone of 4 weights, 3 keys
    handle: bone of 2 weights
  worktop: mesh of 4 vertices, 1 triangle set
  lamp over the worktop: 1 key
    unnamed
texture oak.png
texture tiles.png
texture steel.png
brush oak
brush stone
brush steel door
";
    run(&folder, &["tree", "kitchen.b3d"]).is(0, kitchen);
}

#[test]
fn refusals_are_explained() {
    let folder = fresh("explained");
    let explained = |file: &[u8], told: &str| {
        fs::write(folder.join("bad.b3d"), file).unwrap();
        run(&folder, &["explain", "bad.b3d"]).is(1, told);
    };
    let vertex = "\
7 at 149: an id that names nothing
BB3D at 0, 145 bytes
  NODE at 12, 133 bytes
    MESH at 61, 84 bytes
      TRIS at 129, 16 bytes
a vertex id is 3, not a vertex of the same mesh
the mesh has 3 vertices
kelompuris mend FILE OUT makes a copy that opens
";
    explained(&with(worked::t(), 149, 3), vertex);
    let version = "\
6 at 8: a number outside its range
BB3D at 0, 57 bytes
the version is 100, not 0 to 99
";
    explained(&with(worked::h(), 8, 100), version);
    let cut = "\
2 at 4: a BB3D length that is not the file size minus 8
BB3D says 57 bytes, 52 are there: 5 are missing: the file may be cut
";
    explained(&worked::h()[..60], cut);
    let door = "\
2 at 0: a first tag that is not BB3D
the file looks like a skeleton of cal3d: kelompuris skeleton FILE
";
    run(&folder, &["explain", "door.csf"]).is(1, door);
    run(&folder, &["explain", "hall.b3d"]).is(0, "accepted, version 1, 1 node\n");
    // What only the strict mode refuses is not mended.
    let colour = with(worked::brush(1), 64, 2.0_f32.to_bits());
    fs::write(folder.join("bad.b3d"), with(colour.clone(), 92, 9)).unwrap();
    let told = run(&folder, &["explain", "bad.b3d"]);
    let hint = "kelompuris mend FILE OUT makes a copy that opens with --lenient\n";
    assert!(told.out.ends_with(hint), "{told:?}");
    fs::write(folder.join("bad.b3d"), colour).unwrap();
    let told = run(&folder, &["explain", "bad.b3d"]);
    assert!(
        told.out
            .ends_with("a colour is 2, not 0 to 1 (with --lenient any is taken)\n"),
        "{told:?}"
    );
}

#[test]
fn every_cut_and_every_changed_byte_is_explained() {
    let folder = fresh("explained_all");
    let kitchen = fs::read(folder.join("kitchen.b3d")).unwrap();
    for place in (0..kitchen.len()).step_by(7) {
        for byte in [0, 0xFF] {
            let mut bad = kitchen.clone();
            bad[place] = byte;
            fs::write(folder.join("bad.b3d"), &bad).unwrap();
            let explained = run(&folder, &["explain", "bad.b3d"]);
            assert!(explained.status <= 1, "{place}: {explained:?}");
        }
        fs::write(folder.join("bad.b3d"), &kitchen[..place]).unwrap();
        assert_eq!(run(&folder, &["explain", "bad.b3d"]).status, 1, "{place}");
    }
}

#[test]
fn folders_and_json() {
    let folder = fresh("folders");
    fs::create_dir_all(folder.join("rooms/upper.b3d")).unwrap();
    fs::write(folder.join("rooms/upper.b3d/Z.B3D"), worked::h()).unwrap();
    fs::write(folder.join("rooms/\"a\\.b3d"), &worked::h()[..11]).unwrap();
    fs::write(folder.join("rooms/note.txt"), "no scene").unwrap();
    // A pipe that nobody writes to would never end.
    let pipe = std::process::Command::new("mkfifo")
        .arg(folder.join("rooms/pipe.b3d"))
        .status();
    assert!(pipe.unwrap().success());
    let words = "1 at 0: a file size outside 12 to 16,777,216 bytes";
    let told =
        format!("rooms/\"a\\.b3d: {words}\nrooms/upper.b3d/Z.B3D: accepted, version 1, 1 node\n");
    run(&folder, &["check", "rooms"]).is(1, &told);
    let told = format!(
        "{{\"file\":\"rooms/\\\"a\\\\.b3d\",\"number\":1,\"place\":0,\"words\":\"{words}\"}}\n\
{{\"file\":\"rooms/upper.b3d/Z.B3D\",\"number\":0,\"place\":0,\"words\":\"accepted, version 1, 1 node\",\
\"version\":1,\"n_texs\":0,\"textures\":0,\"brushes\":0,\"nodes\":1,\"meshes\":0,\"vertices\":0,\
\"triangle_sets\":0,\"triangles\":0,\"weights\":0,\"key_lists\":0,\"keys\":0}}\n"
    );
    run(&folder, &["check", "--json", "rooms"]).is(1, &told);
}
