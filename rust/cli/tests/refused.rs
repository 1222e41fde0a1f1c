//! What `tables`, `build` and `clear` refuse or cannot read, and that they then
//! leave no file.

mod common;

use common::{fresh, names_in, run};
use scenes::worked::{self, with};
use std::fs;

#[test]
fn a_refused_file_leaves_nothing() {
    let folder = fresh("refused_file");
    fs::write(folder.join("bad"), with(worked::t(), 69, 0)).unwrap();
    fs::write(folder.join("old"), "old").unwrap();
    let before = names_in(&folder);
    let words = "bad: 7 at 69: an id that names nothing";
    for target in ["new", "old"] {
        run(&folder, &["clear", "--force", "bad", target]).stops(1, words);
        run(&folder, &["tables", "bad", target]).stops(1, words);
    }
    assert_eq!(names_in(&folder), before);
    assert_eq!(fs::read(folder.join("old")).unwrap(), b"old");
}

/// Changes one text of the kitchen's tables and builds.
fn build_changed(name: &str, table: &str, old: &str, new: &str, status: i32, words: &str) {
    let folder = fresh(name);
    run(&folder, &["tables", "kitchen.b3d", "parts"]).is(0, "");
    let path = folder.join("parts").join(table);
    let text = fs::read_to_string(&path).unwrap();
    assert!(text.contains(old), "{text}");
    fs::write(&path, text.replacen(old, new, 1)).unwrap();
    fs::write(folder.join("old"), "old").unwrap();
    let before = names_in(&folder);
    for target in ["new", "old"] {
        run(&folder, &["build", "--force", "parts", target]).stops(status, words);
    }
    assert_eq!(names_in(&folder), before);
    assert_eq!(fs::read(folder.join("old")).unwrap(), b"old");
}

#[test]
fn tables_that_no_file_has_are_refused() {
    let words = "parts: 12 at 0: tables that no accepted file has";
    let change = |name, table, old, new| build_changed(name, table, old, new, 1, words);
    change("bad_version", "scene.tsv", "1\t2", "100\t2");
    change("bad_vertex", "triangles.tsv", "4\t6\t7", "4\t6\t8");
    change("bad_name", "nodes.tsv", "hinge", "hi\\x00nge");
    change("bad_parent", "nodes.tsv", "hinge\t0", "hinge\t1");
    change("bad_branch", "nodes.tsv", "\t5\n", "\t3\n");
    change("bad_rows", "weights.tsv", "\n4\t1\n", "\n");
}

#[test]
fn texts_that_are_no_tables_fail() {
    let change = |name, table, old, new, words| build_changed(name, table, old, new, 2, words);
    let header = "weights.tsv: line 1: not the column names of this table";
    change("no_header", "weights.tsv", "vertex\tweight\n", "", header);
    let cells = "triangles.tsv: line 2: 2 cells, not 3";
    change("few_cells", "triangles.tsv", "0\t1\t2", "0\t1", cells);
    let float = "weights.tsv: line 2, weight: cannot read \"0,5\"";
    change("comma", "weights.tsv", "4\t1\n", "4\t0,5\n", float);
    let hex = "weights.tsv: line 2, weight: cannot read \"3f800000\"";
    change("hex", "weights.tsv", "4\t1\n", "4\t3f800000\n", hex);
    let older = "textures.tsv: line 2, position_x: cannot read \"0\"";
    let (head, no_floats) = ("\tfloats\n1\t2\tdecimal\n", "\n1\t2\n");
    change("decimal_in_older", "scene.tsv", head, no_floats, older);
    let whole = "scene.tsv: line 2, version: cannot read \"one\"";
    change("no_number", "scene.tsv", "1\t2", "one\t2", whole);
    let name = "brushes.tsv: line 4, name: cannot read \"steel\\door\"";
    change(
        "no_escape",
        "brushes.tsv",
        "steel\\x20door",
        "steel\\door",
        name,
    );
    let below = "nodes.tsv: line 1: 19 columns, not 20: an older width, without below";
    change("old_width", "nodes.tsv", "\tbelow\n", "\n", below);
    let rows = "scene.tsv: not just one row";
    change(
        "two_rows",
        "scene.tsv",
        "1\t2\tdecimal\n",
        "1\t2\tdecimal\n1\t2\tdecimal\n",
        rows,
    );
}

#[test]
fn a_missing_table_fails() {
    let folder = fresh("missing_table");
    run(&folder, &["tables", "hall.b3d", "parts"]).is(0, "");
    fs::remove_file(folder.join("parts/keys.tsv")).unwrap();
    run(&folder, &["build", "parts", "new"]).stops(2, "parts/keys.tsv: ");
    assert!(!folder.join("new").exists());
}
