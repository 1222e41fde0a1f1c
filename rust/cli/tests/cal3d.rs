//! `skeleton` and `mesh`.

mod common;

use common::{fresh, names_in, run};
use scenes::cal3d::{
    fault, mesh, mesh_with_rows, skeleton, skeleton_with_parents, wrong_trees, Made, NONE,
};
use scenes::Rng;
use std::fs;
use std::path::Path;

#[test]
fn the_door() {
    let folder = fresh("door");
    let listed = "\
0 0
1300 6 0.25 0.25 0.25
6 4
frame
  hinge
    leaf
      handle
  curtain rail
unnamed
";
    run(&folder, &["skeleton", "door.csf"]).is(0, listed);
    let checked = "door.csf: accepted, version 1300, 6 bones, 4 children\n";
    run(&folder, &["skeleton", "--check", "door.csf"]).is(0, checked);
}

/// Names as cal3d's own writer stores them, with a zero behind each.
#[test]
fn names_with_a_zero() {
    let folder = fresh("names_with_a_zero");
    let mut file = b"CSF\0".to_vec();
    let mut put = |numbers: &[u32], name: &[u8]| {
        file.extend(numbers.iter().flat_map(|number| number.to_le_bytes()));
        file.extend(name);
    };
    put(&[1300, 2, 0, 0, 0], b"");
    for name in [&b"hip\0"[..], b"\0"] {
        put(&[name.len() as u32], name);
        put(&[0; 14], b"");
        put(&[NONE, 0, 0, 0, 0, 0], b"");
    }
    fs::write(folder.join("hip.csf"), file).unwrap();
    let listed = "0 0\n1300 2 0 0 0\n2 0\nhip\nunnamed\n";
    run(&folder, &["skeleton", "hip.csf"]).is(0, listed);
    let listed = "0 0\n1300 2 0 0 0\n2 1\nlid\n  hinge\n";
    run(&folder, &["skeleton", "lid.csf"]).is(0, listed);
}

#[test]
fn meshes_of_the_door() {
    let folder = fresh("door_meshes");
    let door = "\
0 0
700 2
2 7 7 10 0 3
material 0, vertices 4, faces 2, lod_steps 0, springs 0, maps 1
material 1, vertices 3, faces 1, lod_steps 0, springs 0, maps 1
";
    run(&folder, &["mesh", "door.cmf"]).is(0, door);
    let curtain = "\
0 0
700 1
1 6 6 3 5 4
material -1, vertices 6, faces 4, lod_steps 1, springs 5, maps 1
";
    run(&folder, &["mesh", "curtain.cmf", "--skeleton", "door.csf"]).is(0, curtain);
    let checked = "\
door.cmf: accepted, version 700, 2 submeshes, 7 vertices, 7 maps, 10 influences, 3 faces
curtain.cmf: accepted, version 700, 1 submesh, 6 vertices, 6 maps, 3 influences, 5 springs, 4 faces
";
    run(&folder, &["mesh", "--check", "door.cmf", "curtain.cmf"]).is(0, checked);
}

#[test]
fn bones_of_a_mesh() {
    let folder = fresh("bones_of_a_mesh");
    let refused = "7 80\n";
    for (count, status) in [("4", 1), ("5", 0), ("4294967295", 0), ("0", 1)] {
        let listed = run(&folder, &["mesh", "curtain.cmf", "--bones", count]);
        assert_eq!(listed.status, status, "{listed:?}");
        assert_eq!(listed.out == refused, status == 1, "{listed:?}");
        let words = "curtain.cmf: 7 at 80: an id that names nothing\n";
        let checked = run(
            &folder,
            &["mesh", "--check", "curtain.cmf", "--bones", count],
        );
        assert_eq!(
            (checked.status, checked.out == words),
            (status, status == 1)
        );
    }
    // A skeleton of four bones.
    let parents = [NONE, 0, 1, 2];
    let four = skeleton_with_parents(&mut Rng::new(40), &parents);
    fs::write(folder.join("four.csf"), four.file).unwrap();
    run(&folder, &["mesh", "curtain.cmf", "--skeleton", "four.csf"]).is(1, refused);
    run(
        &folder,
        &[
            "mesh",
            "--tables",
            "curtain.cmf",
            "t",
            "--skeleton",
            "four.csf",
        ],
    )
    .stops(1, "curtain.cmf: 7 at 80");
    run(
        &folder,
        &[
            "mesh",
            "--tables",
            "curtain.cmf",
            "t",
            "--skeleton",
            "door.csf",
        ],
    )
    .is(0, "");
    // One that is refused, and one that cannot be read.
    let words = "door.cmf: 2 at 0: a magic token that is not CSF";
    run(&folder, &["mesh", "curtain.cmf", "--skeleton", "door.cmf"]).stops(1, words);
    run(&folder, &["mesh", "curtain.cmf", "--skeleton", "none"]).stops(2, "none");
    // Without a count, ids that a skeleton can have.
    let curtain = fs::read(folder.join("curtain.cmf")).unwrap();
    for (id, status) in [(16_382, 0), (16_383, 1)] {
        let other = scenes::cal3d::with_number(&curtain, 80, id);
        fs::write(folder.join("other.cmf"), other).unwrap();
        assert_eq!(run(&folder, &["mesh", "other.cmf"]).status, status);
    }
}

#[test]
fn tables_of_the_curtain() {
    let folder = fresh("curtain_tables");
    run(&folder, &["mesh", "--tables", "curtain.cmf", "parts"]).is(0, "");
    let texts = [
        ("faces", "vertex_0 vertex_1 vertex_2", "1 5 4"),
        ("influences", "bone weight", "4 1"),
        ("maps", "map_u map_v", "0.5 1"),
        ("mesh", "version submeshes", "700 1"),
        (
            "springs",
            "vertex_0 vertex_1 coefficient idle_length",
            "2 5 8 1",
        ),
        (
            "submeshes",
            "material vertices faces lod_steps springs maps first_vertex first_spring first_face",
            "-1 6 4 1 5 1 0 0 0",
        ),
        (
            "vertices",
            "position_x position_y position_z normal_x normal_y normal_z collapse face_collapses \
             influences cloth_weight first_map first_influence",
            "0.5 1 0.125 0 0 1 4 1 0 1 5 3",
        ),
    ];
    let names = texts.map(|(name, _, _)| format!("{name}.tsv"));
    assert_eq!(names_in(&folder.join("parts")), names);
    for (name, header, last) in texts {
        let text = fs::read_to_string(folder.join(format!("parts/{name}.tsv"))).unwrap();
        let lines: Vec<String> = text.lines().map(|line| line.replace('\t', " ")).collect();
        assert_eq!(
            (lines[0].as_str(), lines.last().unwrap().as_str()),
            (header, last)
        );
    }
}

#[test]
fn tables_of_the_door() {
    let folder = fresh("door_tables");
    run(&folder, &["skeleton", "--tables", "door.csf", "parts"]).is(0, "");
    let files = ["bones.tsv", "children.tsv", "skeleton.tsv"];
    assert_eq!(names_in(&folder.join("parts")), files);
    let text = |name| fs::read_to_string(folder.join("parts").join(name)).unwrap();
    let head = "version\tbones\tambient_red\tambient_green\tambient_blue\n\
                1300\t6\t0.25\t0.25\t0.25\n";
    assert_eq!(text("skeleton.tsv"), head);
    assert_eq!(text("children.tsv"), "bone\n1\n4\n2\n3\n");
    let bones = text("bones.tsv");
    let lines: Vec<&str> = bones.lines().collect();
    let names = "name translation_x translation_y translation_z rotation_x rotation_y rotation_z \
                 rotation_w local_translation_x local_translation_y local_translation_z \
                 local_rotation_x local_rotation_y local_rotation_z local_rotation_w parent lighting \
                 colour_red colour_green colour_blue children first_child";
    let rail = "curtain\\x20rail 0 2 0.125 0 0 0 1 0 -2 -0.125 0 0 0 1 0 0 1 1 1 0 4";
    assert_eq!(lines.len(), 7);
    assert_eq!(lines[0], names.replace(' ', "\t"));
    assert_eq!(lines[5], rail.replace(' ', "\t"));
}

/// A table's text, but for the line of column names: `n` is a name, of two words,
/// which is empty here, `w` a whole number, `f` a float, by its bits.
fn text_of(words: &[u32], columns: &str) -> String {
    let mut left = words.iter();
    let mut text = String::new();
    while !left.as_slice().is_empty() {
        let cells = columns.chars().map(|column| {
            let word = *left.next().unwrap();
            match column {
                'n' => left.next().map(|_| String::new()).unwrap(),
                'w' => (word as i32).to_string(),
                _ => format!("{word:08x}"),
            }
        });
        text += &(cells.collect::<Vec<_>>().join("\t") + "\n");
    }
    text
}

/// Such a text with its floats read back and printed by their bits.
fn in_hex(rows: &str, columns: &str) -> String {
    let mut text = String::new();
    for line in rows.lines() {
        let cells = line.split('\t').zip(columns.chars());
        let cells = cells.map(|(cell, column)| match (column, cell.strip_prefix("nan:")) {
            ('f', Some(bits)) => bits.to_string(),
            ('f', None) => format!("{:08x}", cell.parse::<f32>().unwrap().to_bits()),
            _ => cell.to_string(),
        });
        text += &(cells.collect::<Vec<_>>().join("\t") + "\n");
    }
    text
}

/// Every word of the tables is in their texts.
fn texts_hold(folder: &Path, made: &Made, kind: &str, tables: &[(&str, &str)]) {
    fs::write(folder.join("f"), &made.file).unwrap();
    let parts = folder.join("parts");
    if parts.exists() {
        fs::remove_dir_all(&parts).unwrap();
    }
    run(folder, &[kind, "--tables", "f", "parts"]).is(0, "");
    for ((name, columns), words) in tables.iter().zip(&made.tables) {
        let text = fs::read_to_string(parts.join(format!("{name}.tsv"))).unwrap();
        let rows = text.split_once('\n').unwrap().1;
        assert_eq!(in_hex(rows, columns), text_of(words, columns), "{name}");
    }
}

#[test]
fn generated_tables() {
    let folder = fresh("cal3d_tables");
    let mut rng = Rng::new(41);
    let skeleton = [("bones", "nffffffffffffffwwfffww"), ("children", "w")];
    let meshes = [
        ("submeshes", "wwwwwwwww"),
        ("vertices", "ffffffwwwfww"),
        ("maps", "ff"),
        ("influences", "wf"),
        ("springs", "wwff"),
        ("faces", "www"),
    ];
    for _ in 0..20 {
        let parents = scenes::cal3d::parents(&mut rng, 9);
        let made = skeleton_with_parents(&mut rng, &parents);
        texts_hold(&folder, &made, "skeleton", &skeleton);
        texts_hold(&folder, &mesh(&mut rng, 3, 4), "mesh", &meshes);
    }
}

/// The lines that a listing has for some parents: by recursion, from the lists in
/// the tables.
fn branch(made: &Made, bone: usize, level: usize, lines: &mut Vec<String>) {
    let row = &made.tables[0][23 * bone..][..23];
    let name = &made.file[row[0] as usize..][..row[1] as usize];
    let name = name.strip_suffix(&[0]).unwrap_or(name);
    let shown: String = name
        .iter()
        .map(|&byte| {
            if (32..127).contains(&byte) {
                byte as char
            } else {
                '?'
            }
        })
        .collect();
    let shown = if shown.is_empty() {
        "unnamed".to_string()
    } else {
        shown
    };
    lines.push("  ".repeat(level) + &shown);
    for child in &made.tables[1][row[22] as usize..][..row[21] as usize] {
        branch(made, *child as usize, level + 1, lines);
    }
}

#[test]
fn generated_trees() {
    let folder = fresh("trees");
    let mut rng = Rng::new(42);
    for _ in 0..40 {
        let made = skeleton(&mut rng, 20);
        fs::write(folder.join("f"), &made.file).unwrap();
        let mut lines = Vec::new();
        for bone in 0..made.bones.len() {
            if made.tables[0][23 * bone + 16] == NONE {
                branch(&made, bone, 0, &mut lines);
            }
        }
        let listed = run(&folder, &["skeleton", "f"]);
        assert_eq!(listed.status, 0);
        assert!(listed.out.lines().skip(3).eq(lines.iter()), "{listed:?}");
    }
}

/// A chain as long as there may be: its listing is no longer than the file by
/// much.
#[test]
fn a_long_chain() {
    let folder = fresh("long_chain");
    let parents: Vec<u32> = (0..16_383_u32).map(|bone| bone.wrapping_sub(1)).collect();
    let made = skeleton_with_parents(&mut Rng::new(43), &parents);
    fs::write(folder.join("f"), &made.file).unwrap();
    let listed = run(&folder, &["skeleton", "f"]);
    let lines: Vec<&str> = listed.out.lines().collect();
    assert_eq!((listed.status, lines.len()), (0, 3 + 16_383));
    let inner = " ".repeat(64);
    assert_eq!(lines[3 + 32], format!("{inner}unnamed"));
    assert_eq!(lines[3 + 33], format!("{inner}33: unnamed"));
    assert_eq!(lines[3 + 16_382], format!("{inner}16382: unnamed"));
    assert!(listed.out.len() < made.file.len());
}

/// Refusals: number and place are listed, in words by `--check`, and `--tables`
/// leaves no folder.
fn refused(folder: &Path, kind: &str, file: &[u8], number: u32, place: usize) {
    fs::write(folder.join("f"), file).unwrap();
    let before = names_in(folder);
    run(folder, &[kind, "f"]).is(1, &format!("{number} {place}\n"));
    let told = format!("f: {number} at {place}: ");
    let checked = run(folder, &[kind, "--check", "f"]);
    assert_eq!(checked.status, 1);
    assert!(checked.out.starts_with(&told), "{checked:?}");
    run(folder, &[kind, "--tables", "f", "parts"]).stops(1, &told);
    assert_eq!(names_in(folder), before);
}

#[test]
fn refused_skeletons() {
    let folder = fresh("refused_skeletons");
    let mut rng = Rng::new(44);
    for _ in 0..30 {
        let made = skeleton(&mut rng, 5);
        let one = fault(&mut rng, &made);
        refused(&folder, "skeleton", &one.file, one.number, one.place);
        if let Some(one) = wrong_trees(&mut rng, 6) {
            refused(&folder, "skeleton", &one.file, 16, one.place);
        }
    }
    let many = skeleton_with_parents(&mut rng, &[NONE; 16_384]);
    refused(&folder, "skeleton", &many.file, 10, 1);
    let words = "f: 10 at 1: more than 16,383 rows in table 1, bones\n";
    run(&folder, &["skeleton", "--check", "f"]).is(1, words);
}

#[test]
fn refused_meshes() {
    let folder = fresh("refused_meshes");
    let mut rng = Rng::new(45);
    for _ in 0..30 {
        // As many bones as a mesh may name where none are given.
        let made = mesh(&mut rng, 16_383, 3);
        let one = fault(&mut rng, &made);
        refused(&folder, "mesh", &one.file, one.number, one.place);
    }
    let many = mesh_with_rows(&mut rng, 6, 16_384);
    refused(&folder, "mesh", &many.file, 10, 6);
    let words = "f: 10 at 6: more than 16,383 rows in table 6, faces\n";
    run(&folder, &["mesh", "--check", "f"]).is(1, words);
}

#[test]
fn check_answers_every_file_and_ends_with_the_worst() {
    let folder = fresh("cal3d_worst");
    let hall = "hall.b3d: 2 at 0: a magic token that is not CSF\n";
    let door = "door.csf: accepted, version 1300, 6 bones, 4 children\n";
    let both = run(&folder, &["skeleton", "--check", "hall.b3d", "door.csf"]);
    both.is(1, &format!("{hall}{door}"));
    let some = run(&folder, &["skeleton", "--check", "none", "door.csf"]);
    assert_eq!(some.status, 2);
    assert!(some.out.ends_with(door), "{some:?}");
}
