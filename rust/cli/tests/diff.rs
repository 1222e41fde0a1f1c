//! `diff`: lines a planner reads, statuses, and the list as bytes.

mod common;

use common::{fresh, names_in, run};
use scenes::pairs::few_cells;
use scenes::worked::{brush, h, p, t, with};
use scenes::{Profile, Rng};
use std::fs;
use std::path::Path;

fn put(folder: &Path, name: &str, bytes: &[u8]) {
    fs::write(folder.join(name), bytes).unwrap();
}

fn get(folder: &Path, name: &str) -> Vec<u8> {
    fs::read(folder.join(name)).unwrap()
}

#[test]
fn nothing_differs() {
    let folder = fresh("same");
    for file in ["hall.b3d", "kitchen.b3d", "table.b3d"] {
        run(&folder, &["diff", file, file]).is(0, "");
        run(&folder, &["diff", "--json", file, file]).is(0, "");
    }
    run(&folder, &["diff", "--raw", "list", "hall.b3d", "hall.b3d"]).is(0, "");
    assert_eq!(get(&folder, "list"), b"");
}

#[test]
fn cells_in_a_planners_words() {
    let folder = fresh("cells");
    let mut old = with(h(), 25, 1.5_f32.to_bits());
    old = with(old, 29, 0);
    old = with(old, 33, 0x7FC0_0000);
    old = with(old, 37, f32::INFINITY.to_bits());
    old[21..24].copy_from_slice(&[0xC3, b'"', 0x1B]);
    let mut new = with(h(), 25, 1.75_f32.to_bits());
    new = with(new, 29, 0x8000_0000);
    new = with(new, 33, 0x7FC0_0001);
    new = with(new, 37, 1e30_f32.to_bits());
    put(&folder, "old", &old);
    put(&folder, "new", &new);
    let lines = "\
nodes row 0, name: \"H?\"?\" -> \"Hall\"
nodes row 0 \"H?\"?\", position x: 1.5 -> 1.75
nodes row 0 \"H?\"?\", position y: 0 -> -0
nodes row 0 \"H?\"?\", position z: nan:7fc00000 -> nan:7fc00001
nodes row 0 \"H?\"?\", scale x: inf -> 1e30
";
    let told = run(&folder, &["diff", "old", "new"]);
    told.is(1, lines);
    assert_eq!(told.err, "kelompuris: 5 cells differ\n");
    let lines = "\
{\"table\":3,\"row\":0,\"word\":0,\"what\":\"nodes row 0, name\",\"of\":\"H?\\\"?\",\"old\":\"H?\\\"?\",\"new\":\"Hall\"}
{\"table\":3,\"row\":0,\"word\":3,\"what\":\"nodes row 0, position x\",\"of\":\"H?\\\"?\",\"old\":1.5,\"new\":1.75}
{\"table\":3,\"row\":0,\"word\":4,\"what\":\"nodes row 0, position y\",\"of\":\"H?\\\"?\",\"old\":0,\"new\":-0}
{\"table\":3,\"row\":0,\"word\":5,\"what\":\"nodes row 0, position z\",\"of\":\"H?\\\"?\",\"old\":\"nan:7fc00000\",\"new\":\"nan:7fc00001\"}
{\"table\":3,\"row\":0,\"word\":6,\"what\":\"nodes row 0, scale x\",\"of\":\"H?\\\"?\",\"old\":\"inf\",\"new\":1e30}
";
    run(&folder, &["diff", "old", "new", "--json"]).is(1, lines);
}

#[test]
fn ids_that_are_not_there_and_whole_numbers() {
    let folder = fresh("whole");
    put(&folder, "old", &brush(1));
    put(&folder, "new", &with(brush(1), 92, 0xFFFF_FFFF));
    let line = "brushes row 0 \"b\", texture 0: 0 \"t\" -> none\n";
    run(&folder, &["diff", "old", "new"]).is(1, line);
    put(&folder, "old", &t());
    put(&folder, "new", &with(t(), 149, 0));
    let line = "triangles row 0 (of unnamed), vertex 2: 2 -> 0\n";
    let told = run(&folder, &["diff", "old", "new"]);
    told.is(1, line);
    assert_eq!(told.err, "kelompuris: 1 cell differs\n");
}

/// Changes a cell of the texts of a scene.
fn edit(folder: &Path, table: &str, row: usize, column: &str, cell: &str) {
    let path = folder.join("parts").join(table).with_extension("tsv");
    let text = fs::read_to_string(&path).unwrap();
    let mut lines: Vec<Vec<&str>> = text
        .lines()
        .map(|line| line.split('\t').collect())
        .collect();
    let column = lines[0].iter().position(|name| *name == column).unwrap();
    lines[row + 1][column] = cell;
    let lines: Vec<String> = lines.iter().map(|cells| cells.join("\t") + "\n").collect();
    fs::write(path, lines.concat()).unwrap();
}

/// What a planner is told of a kitchen that the studio has changed: whose the cells are, and what ids name.
#[test]
fn a_changed_kitchen() {
    let folder = fresh("changed_kitchen");
    run(&folder, &["tables", "kitchen.b3d", "parts"]).is(0, "");
    for (table, row, column, cell) in [
        ("textures", 1, "name", "marble.png"),
        ("brushes", 0, "red", "0.9"),
        ("brushes", 0, "texture_1", "-1"),
        ("nodes", 0, "anim_fps", "30"),
        ("nodes", 1, "rotation_2", "0.5"),
        ("nodes", 3, "name", "island"),
        ("nodes", 4, "position_y", "2.25"),
        ("nodes", 5, "scale_x", "2"),
        ("meshes", 1, "brush", "0"),
        ("vertices", 7, "set_0_1", "-0"),
        ("vertices", 8, "position_x", "1.5"),
        ("triangle_sets", 1, "brush", "-1"),
        ("triangles", 3, "vertex_1", "5"),
        ("triangles", 4, "vertex_1", "2"),
        ("weights", 3, "weight", "0.5"),
        ("weights", 4, "vertex", "5"),
        ("keys", 1, "rotation_2", "0.25"),
        ("keys", 3, "position_y", "2.25"),
    ] {
        edit(&folder, table, row, column, cell);
    }
    run(&folder, &["build", "parts", "new"]).is(0, "");
    let lines = "\
textures row 1, name: \"tiles.png\" -> \"marble.png\"
brushes row 0 \"oak\", red: 1 -> 0.9
brushes row 0 \"oak\", texture 1: 1 \"tiles.png\" -> none
nodes row 0 \"cupboard\", anim fps: 25 -> 30
nodes row 1 \"hinge\", rotation y: 0 -> 0.5
nodes row 3, name: \"worktop\" -> \"island\"
nodes row 4 \"lamp over the worktop\", position y: 2.1 -> 2.25
nodes row 5 unnamed, scale x: 1 -> 2
meshes row 1 (of \"worktop\"), brush: 1 \"stone\" -> 0 \"oak\"
vertices row 7 (vertex 7 of \"cupboard\"), coordinate 1 of set 0: 2.25 -> -0
vertices row 8 (vertex 0 of \"worktop\"), position x: 0 -> 1.5
triangle sets row 1 (of \"cupboard\"), brush: 2 \"steel door\" -> none
triangles row 3 (of \"cupboard\"), vertex 1: 6 -> 5
triangles row 4 (of \"worktop\"), vertex 1: 1 -> 2
weights row 3 (of \"hinge\", vertex 7), weight: 0.75 -> 0.5
weights row 4 (of \"handle\", vertex 6), vertex: 6 -> 5
keys row 1 (of \"hinge\", frame 25), rotation y: 0.7 -> 0.25
keys row 3 (of \"lamp over the worktop\", frame 1), position y: 2.1 -> 2.25
";
    let told = run(&folder, &["diff", "kitchen.b3d", "new"]);
    told.is(1, lines);
    assert_eq!(told.err, "kelompuris: 18 cells differ\n");
    let told = run(&folder, &["diff", "--json", "kitchen.b3d", "new"]);
    let vertex = "{\"table\":5,\"row\":8,\"word\":0,\"what\":\"vertices row 8, position x\",\
\"of\":\"worktop\",\"old\":0,\"new\":1.5}\n";
    assert!(told.out.contains(vertex), "{}", told.out);
}

#[test]
fn numbers_of_rows_come_alone() {
    let folder = fresh("numbers");
    put(&folder, "old", &with(p(), 8, 2));
    let lines = "version: 2 -> 1\nnumber of nodes: 0 -> 1\n";
    let told = run(&folder, &["diff", "old", "hall.b3d"]);
    told.is(1, lines);
    assert!(told.err.contains("what is in the rows is not compared"));
}

#[test]
fn a_copy_without_names_differs_in_names_only() {
    let folder = fresh("names_only");
    run(&folder, &["clear", "kitchen.b3d", "cleared"]).is(0, "");
    let told = run(&folder, &["diff", "kitchen.b3d", "cleared"]);
    assert_eq!(told.status, 1);
    assert!(told.out.lines().count() > 3);
    for line in told.out.lines() {
        assert!(
            line.contains(", name: ") && line.ends_with(" -> \"\""),
            "{line}"
        );
    }
}

#[test]
fn a_refused_file_is_named() {
    let folder = fresh("diff_refused");
    put(&folder, "bad", &with(t(), 149, 3));
    let before = names_in(&folder);
    let why = "bad: 7 at 149: an id that names nothing";
    for words in [["bad", "hall.b3d"], ["hall.b3d", "bad"]] {
        run(&folder, &["diff", words[0], words[1]]).stops(2, why);
        run(&folder, &["diff", "--raw", "list", words[0], words[1]]).stops(2, why);
    }
    run(&folder, &["diff", "none", "hall.b3d"]).stops(2, "none");
    run(&folder, &["diff", "hall.b3d"]).stops(2, "usage");
    assert_eq!(names_in(&folder), before);
}

#[test]
fn the_list_as_bytes() {
    let folder = fresh("raw");
    let mut rng = Rng::new(7);
    let pair = few_cells(&mut rng, Profile::WIDE, 30);
    put(&folder, "old", &pair.first);
    put(&folder, "new", &pair.second);
    let told = run(&folder, &["diff", "--raw", "list", "old", "new"]);
    assert_eq!(told.status, 1);
    assert_eq!(get(&folder, "list"), pair.list);
    run(&folder, &["diff", "--raw", "list", "old", "new"]).stops(2, "--force");
    run(&folder, &["diff", "--raw", "old", "--force", "old", "new"]).stops(2, "old");
    run(
        &folder,
        &["diff", "--raw", "./new", "--force", "old", "new"],
    )
    .stops(2, "new");
    assert_eq!(get(&folder, "old"), pair.first);
    assert_eq!(get(&folder, "new"), pair.second);
    let again = run(&folder, &["diff", "--raw", "list", "--force", "old", "new"]);
    assert_eq!((again.status, again.out), (1, told.out));
}
