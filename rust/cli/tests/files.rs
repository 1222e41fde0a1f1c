//! `tables`, `build` and `clear`.

mod common;

use common::{fresh, names_in, run, sheet_of};
use kelompuris::columns::{Kind, TABLES};
use kelompuris::{Mode, Row, Scene};
use scenes::worked::{self, with};
use scenes::{scene, Profile, Rng};
use std::fs;
use std::path::Path;

const SAMPLES: [&str; 3] = ["hall.b3d", "table.b3d", "kitchen.b3d"];

/// Takes a file apart and puts it together again.
fn rebuilt(folder: &Path, file: &str) -> Vec<u8> {
    let parts = folder.join("parts");
    if parts.exists() {
        fs::remove_dir_all(&parts).unwrap();
    }
    run(folder, &["tables", file, "parts"]).is(0, "");
    run(folder, &["build", "--force", "parts", "built"]).is(0, "");
    fs::read(folder.join("built")).unwrap()
}

/// What the independent clearer makes of a file.
fn cleared(file: &[u8]) -> Vec<u8> {
    let mut copy = vec![0; file.len()];
    let written = reference::clear(file, &mut copy);
    copy.truncate(written.size as usize);
    copy
}

#[test]
fn tables_of_the_hall() {
    let folder = fresh("tables_hall");
    run(&folder, &["tables", "hall.b3d", "parts"]).is(0, "");
    let files = [
        "brushes.tsv",
        "key_lists.tsv",
        "keys.tsv",
        "meshes.tsv",
        "nodes.tsv",
        "scene.tsv",
        "textures.tsv",
        "triangle_sets.tsv",
        "triangles.tsv",
        "vertices.tsv",
        "weights.tsv",
    ];
    assert_eq!(names_in(&folder.join("parts")), files);
    let text = |name| fs::read_to_string(folder.join("parts").join(name)).unwrap();
    assert_eq!(
        text("scene.tsv"),
        "version\tn_texs\tfloats\n1\t0\tdecimal\n"
    );
    assert_eq!(text("weights.tsv"), "vertex\tweight\n");
    let nodes = "\
name parent position_x position_y position_z scale_x scale_y scale_z rotation_0 rotation_1 \
rotation_2 rotation_3 kind first count anim anim_flags anim_frames anim_fps below
Hall -1 1e-45 3e-45 4e-45 6e-45 7e-45 8e-45 1e-44 1.1e-44 1.3e-44 1.4e-44 0 0 0 0 0 0 0 0
";
    assert_eq!(text("nodes.tsv"), nodes.replace(' ', "\t"));
}

#[test]
fn names_are_escaped() {
    let folder = fresh("names_escaped");
    fs::write(
        folder.join("f"),
        with(worked::h(), 20, u32::from_le_bytes(*b"\x01 \\\xfe")),
    )
    .unwrap();
    run(&folder, &["tables", "f", "parts"]).is(0, "");
    let nodes = fs::read_to_string(folder.join("parts/nodes.tsv")).unwrap();
    assert!(nodes.contains("\n\\x01\\x20\\x5c\\xfe\t-1\t"), "{nodes}");
}

#[test]
fn built_samples_have_the_same_tables() {
    let folder = fresh("built_samples");
    for name in SAMPLES {
        let file = fs::read(folder.join(name)).unwrap();
        let built = rebuilt(&folder, name);
        assert!(
            sheet_of(&built).same_but_name_places(&sheet_of(&file)),
            "{name}"
        );
        assert_eq!(built == file, name != "kitchen.b3d", "{name}");
    }
}

/// Floats of all kinds: zeros, the least and the largest, whole ones of eight digits, infinities, and what is not a number.
const FLOATS: [u32; 16] = [
    0,
    0x8000_0000,
    1,
    0x8000_0001,
    0x007F_FFFF,
    0x0080_0000,
    0x3DCC_CCCD,
    0x3F80_0000,
    0x4B80_0000,
    0x4B3C_614E,
    0x7F7F_FFFF,
    0x7F80_0000,
    0xFF80_0000,
    0x7F80_0001,
    0x7FC0_0000,
    0xFFFF_FFFF,
];

/// The writer's file of a scene some of whose floats are others.
fn with_floats(file: &[u8], rng: &mut Rng) -> Vec<u8> {
    let mut tables = Scene::read(Mode::Lenient, file).unwrap().tables().clone();
    // Words that are floats in each row, whatever it has: of textures, brushes, nodes, vertices and weights.
    for (table, floats) in [(0, 4..9), (1, 2..7), (2, 3..13), (4, 0..3), (7, 1..2)] {
        let width = TABLES[table].words();
        for row in tables.words[table].chunks_mut(width) {
            for word in &mut row[floats.clone()] {
                *word = FLOATS[rng.between(0, FLOATS.len() - 1)];
            }
        }
    }
    tables.write(Mode::Lenient, file).unwrap()
}

#[test]
fn every_float_comes_back() {
    let folder = fresh("floats");
    let mut rng = Rng::new(24);
    let mut files: Vec<Vec<u8>> = (0..20)
        .map(|_| scene(&mut rng, Profile::WIDE).file)
        .collect();
    files.extend(SAMPLES.map(|name| fs::read(folder.join(name)).unwrap()));
    let mut met = std::collections::BTreeSet::new();
    for file in files {
        let file = with_floats(&file, &mut rng);
        fs::write(folder.join("f"), &file).unwrap();
        drop(fs::remove_dir_all(folder.join("parts")));
        run(&folder, &["tables", "--lenient", "f", "parts"]).is(0, "");
        run(
            &folder,
            &["build", "--lenient", "--force", "parts", "built"],
        )
        .is(0, "");
        assert!(fs::read(folder.join("built")).unwrap() == file);
        let scene = Scene::read(Mode::Lenient, &file).unwrap();
        met.extend(scene.nodes().flat_map(|node| node.words()[3..13].to_vec()));
        in_hex(&folder.join("parts"), &scene);
        run(
            &folder,
            &["build", "--lenient", "--force", "parts", "built"],
        )
        .is(0, "");
        assert!(fs::read(folder.join("built")).unwrap() == file);
    }
    assert!(FLOATS.iter().all(|float| met.contains(float)));
}

/// Texts in the older form, with floats in hex, in place of these.
fn in_hex(parts: &Path, scene: &Scene) {
    let tables = scene.tables();
    let head = format!("version\tn_texs\n{}\t{}\n", tables.version, tables.n_texs);
    fs::write(parts.join("scene.tsv"), head).unwrap();
    for (table, words) in TABLES.iter().zip(&tables.words) {
        let path = parts.join(table.file_name());
        let text = fs::read_to_string(&path).unwrap();
        let mut lines = text.lines().map(str::to_string);
        let mut older = vec![lines.next().unwrap()];
        for (line, row) in lines.zip(words.chunks(table.words())) {
            let mut word = 0;
            let cells = line.split('\t').zip(table.kinds()).map(|(cell, kind)| {
                word += kind.words();
                match kind {
                    Kind::Float => format!("{:08x}", row[word - 1]),
                    _ => cell.to_string(),
                }
            });
            older.push(cells.collect::<Vec<_>>().join("\t"));
        }
        fs::write(path, older.join("\n") + "\n").unwrap();
    }
}

#[test]
fn built_random_files_have_the_same_tables() {
    let folder = fresh("built_random");
    let mut rng = Rng::new(21);
    for _ in 0..20 {
        let made = scene(&mut rng, Profile::WIDE);
        fs::write(folder.join("f"), &made.file).unwrap();
        let built = rebuilt(&folder, "f");
        assert!(sheet_of(&built).same_but_name_places(&made.sheet));
        assert!(built.len() <= made.file.len());
    }
}

#[test]
fn cleared_files_are_those_of_the_independent_clearer() {
    let folder = fresh("cleared");
    let mut rng = Rng::new(22);
    let mut files: Vec<Vec<u8>> = (0..20)
        .map(|_| scene(&mut rng, Profile::WIDE).file)
        .collect();
    files.extend(SAMPLES.map(|name| fs::read(folder.join(name)).unwrap()));
    for file in files {
        fs::write(folder.join("f"), &file).unwrap();
        let copy = cleared(&file);
        run(&folder, &["clear", "--force", "f", "once"]).is(0, "");
        run(&folder, &["clear", "--force", "once", "twice"]).is(0, "");
        assert!(fs::read(folder.join("once")).unwrap() == copy);
        assert!(fs::read(folder.join("twice")).unwrap() == copy);
    }
}

#[test]
fn a_file_is_replaced_only_by_force() {
    let folder = fresh("in_place");
    let before = names_in(&folder);
    run(&folder, &["tables", "hall.b3d", "parts"]).is(0, "");
    for words in [
        &["clear", "hall.b3d", "hall.b3d"][..],
        &["clear", "hall.b3d", "table.b3d"],
        &["slip", "hall.b3d", "table.b3d"],
        &["build", "parts", "table.b3d"],
    ] {
        run(&folder, words).stops(2, "--force replaces it");
    }
    fs::remove_dir_all(folder.join("parts")).unwrap();
    assert_eq!(fs::read(folder.join("hall.b3d")).unwrap(), worked::h());
    assert_eq!(fs::read(folder.join("table.b3d")).unwrap(), worked::t());
    run(&folder, &["clear", "hall.b3d", "hall.b3d", "--force"]).is(0, "");
    assert_eq!(
        fs::read(folder.join("hall.b3d")).unwrap(),
        worked::cleared_h()
    );
    assert_eq!(names_in(&folder), before);
}
