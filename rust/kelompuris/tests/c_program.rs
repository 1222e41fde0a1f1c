//! The header as C11 and as C++17: builds the programs of `tests/c` with it and
//! the archive, runs them and holds what they print to the answers of the papers.

use std::path::Path;
use std::process::Command;

/// Each program and what it prints.
const SAMPLES: [(&str, &str); 10] = [
    ("bad_input", "6892 answers, 0 wrong\n"),
    (
        "read_sample",
        "\
judge: 0 0, 1 0, 0 0 1 0 0 0 0 0 0 0
cut: 1 0, 0 0, 0 0 0 0 0 0 0 0 0 0
short: 11 3, 0 0, 0 0 0 0 0 0 0 0 0 0
untouched: 77
read: 0 0, 1 0, 0 0 1 0 0 0 0 0 0 0
row: 20 4 4294967295 0 0 0 0 0 0 0 0 0 0 0 0 0 0 0 0 0 0 77
name: Hall
strict: 6 37, 0 0, 0 0 0 0 0 0 0 0 0 0
lenient: 0 0, 1 0, 0 1 0 0 0 0 0 0 0 0
mode 2: 6 37, 0 0, 0 0 0 0 0 0 0 0 0 0
label: 0 0, 20 4 0, Hall
no label: 14 0, 0 0 0, 
",
    ),
    (
        "tree_sample",
        "\
judged: 0 at 0
read: 0 at 0
cupboard: mesh, 8 vertices
  hinge: bone, 4 weights
    handle: bone, 2 weights
  worktop: mesh, 4 vertices
  lamp over the worktop
    
cleared: 0, 1412 bytes of 1574
over a lead: 0 at 0
",
    ),
    (
        "write_sample",
        "\
short: 11 65 0, 70 bytes left
version 100: 12 0 0, 70 bytes left
same as H: 1
write: 0 0 65, 5 bytes left
cut: 1 0 0, 70 bytes left
no output: 11 61 0, 70 bytes left
lengths: 53 41, name: 0
clear: 0 0 61, 9 bytes left
",
    ),
    (
        "slip_sample",
        "\
hall: 0 0 12, 1 0 0 0 1 0 0 0 0 0 0 0 77 77 77 77 77 77 77 77 77 77 77 77 77 77 77 77 77 77 77 77 77
no output: 11 12 0, 77 77 77 77 77 77 77 77 77 77 77 77 77 77 77 77 77 77 77 77 77 77 77 77 77 77 77 77 77 77 77 77 77
cut hall: 1 0 0, 77 77 77 77 77 77 77 77 77 77 77 77 77 77 77 77 77 77 77 77 77 77 77 77 77 77 77 77 77 77 77 77 77
version 100: 13 0 0, 77 77 77 77 77 77 77 77 77 77 77 77 77 77 77 77 77 77 77 77 77 77 77 77 77 77 77 77 77 77 77 77 77
numbers: 0 0 15, 99 8 0 129 0 129 128 0 0 0 0 0 0 0 0 77 77 77 77 77 77 77 77 77 77 77 77 77 77 77 77 77 77
read: 0 0, 99 8 0 128 16384 0 0 0 0 0 0 0
cut slip: 13 14, 0 0 0 0 0 0 0 0 0 0 0 0
spare byte: 13 15, 0 0 0 0 0 0 0 0 0 0 0 0
four groups: 13 2, 0 0 0 0 0 0 0 0 0 0 0 0
no slip: 13 0, 0 0 0 0 0 0 0 0 0 0 0 0
",
    ),
    (
        "compare_sample",
        "\
same: 0 0 0 0, 77 77 77 77 77 77 77 77 77 77 77 77 77 77 77 77 77 77 77 77 77 77 77 77
version: 0 0 0 5, 0 0 0 1 9 77 77 77 77 77 77 77 77 77 77 77 77 77 77 77 77 77 77 77
name and position: 0 0 0 22, 3 0 0 4 4 72 97 108 108 66 97 108 108 3 0 3 0 136 128 128 128 0 77 77
short: 11 22 0 0, 77 77 77 77 77 77 77 77 77 77 77 77 77 77 77 77 77 77 77 77 77 77 77 77
cut: 1 0 2 0, 77 77 77 77 77 77 77 77 77 77 77 77 77 77 77 77 77 77 77 77 77 77 77 77
no file: 1 0 1 0
",
    ),
    (
        "mend_sample",
        "\
whole: 0 0 65 0, H, 77 77 77 77 77 77 77 77 77 77 77 77 77 77 77 77 77 77 77 77 77 77 77 77
spare bytes: 0 0 65 7, H, 65 4 3 0 97 98 99 77 77 77 77 77 77 77 77 77 77 77 77 77 77 77 77 77
and length: 0 0 65 19, H, 4 1 4 4 7 0 0 0 57 0 0 0 65 4 3 0 97 98 99 77 77 77 77 77
short: 11 65 0 0, not H, 77 77 77 77 77 77 77 77 77 77 77 77 77 77 77 77 77 77 77 77 77 77 77 77
short report: 11 19 0 0, not H, 77 77 77 77 77 77 77 77 77 77 77 77 77 77 77 77 77 77 77 77 77 77 77 77
version 100: 6 8 0 0, not H, 77 77 77 77 77 77 77 77 77 77 77 77 77 77 77 77 77 77 77 77 77 77 77 77
no file: 1 0 0 0, not H, 77 77 77 77 77 77 77 77 77 77 77 77 77 77 77 77 77 77 77 77 77 77 77 77
",
    ),
    (
        "rows_sample",
        "\
cupboard, parent -1, 5 below
hinge, parent 0, 1 below
handle, parent 1, 0 below
worktop, parent 0, 0 below
lamp over the worktop, parent 0, 1 below
, parent 4, 0 below
end: 0 0 0
41 words: 11 42 0
untouched: 77
node: 0 0 1
 20 4 4294967295 0 0 0 0 0 0 0 0 0 0 0 0 0 0 0 0 0 0 77
then: 0 0 0
another file: 15 0 0
table 0: 15 0 0
table 1: 0 0 0
table 2: 0 0 0
table 3: 0 0 1
table 4: 0 0 0
table 5: 0 0 0
table 6: 0 0 0
table 7: 0 0 0
table 8: 0 0 0
table 9: 0 0 0
table 10: 0 0 0
table 11: 15 0 0
",
    ),
    (
        "pieces_sample",
        "\
byte by byte: 0 0, 1 0, 0 0 1 0 0 0 0 0 0 0
piece after the close: 15 0
close after the close: 15 0, 0 0, 0 0 0 0 0 0 0 0 0 0
18 records: 11 19
close with none: 11 19, 0 0, 0 0 0 0 0 0 0 0 0 0
changed: 0
cuts accepted: 66
cut short: 2 4, 0 0, 0 0 0 0 0 0 0 0 0 0
",
    ),
    (
        "cal3d_sample",
        "\
skeleton: 0 0, 1300 6 3e800000 3e800000 3e800000, 6 4
cut: 5 496, 0 0 00000000 00000000 00000000, 0 0
no file: 1 0, 0 0 00000000 00000000 00000000, 0 0
few bones: 11 1, 0 0 00000000 00000000 00000000, 0 0
no child: 11 2, 0 0 00000000 00000000 00000000, 0 0
untouched: 1 1
read: 0 0, 1300 6 3e800000 3e800000 3e800000, 6 4
untouched behind: 1 1
frame: parent -1, 2 children: 1 4
hinge: parent 0, 1 children: 2
leaf: parent 1, 1 children: 3
handle: parent 2, 0 children:
curtain rail: parent 0, 0 children:
: parent -1, 0 children:
mesh: 0 0, 700 1, 1 6 6 3 5 4
few bones: 7 80, 0 0, 0 0 0 0 0 0
cut: 5 464, 0 0, 0 0 0 0 0 0
no file: 1 0, 0 0, 0 0 0 0 0 0
few faces: 11 6, 0 0, 0 0 0 0 0 0
no table: 11 1, 0 0, 0 0 0 0 0 0
untouched: 1 1 1 1 1 1
read: 0 0, 700 1, 1 6 6 3 5 4
untouched behind: 1 1 1 1 1 1
submesh: -1 6 4 1 5 1 0 0 0
vertex: collapse -1, cloth weight 00000000, 1 influences, first bone 4, weight 3f800000
vertex: collapse -1, cloth weight 00000000, 1 influences, first bone 4, weight 3f800000
vertex: collapse -1, cloth weight 00000000, 1 influences, first bone 4, weight 3f800000
vertex: collapse -1, cloth weight 3f800000, 0 influences
vertex: collapse -1, cloth weight 3f800000, 0 influences
vertex: collapse 4, cloth weight 3f800000, 0 influences
spring: 3 4
spring: 4 5
spring: 0 3
spring: 1 4
spring: 2 5
last face: 1 5 4
",
    ),
];

/// Compiles each with this compiler, language and standard, and runs it.
fn run(compiler: &str, language: &str, standard: &str) {
    let root = Path::new(env!("CARGO_MANIFEST_DIR")).join("../..");
    let folder = Path::new(env!("CARGO_TARGET_TMPDIR"));
    for (sample, printed) in SAMPLES {
        let program = folder.join(format!("{sample}_{standard}"));
        let built = Command::new(compiler)
            .args(["-Wall", "-Wextra", "-Werror", "-pedantic"])
            .arg(format!("-std={standard}"))
            .arg("-I")
            .arg(root.join("include"))
            .args(["-x", language])
            .arg(root.join(format!("tests/c/{sample}.c")))
            .args(["-x", "none"])
            .arg(env!("KELOMPURIS_ARCHIVE"))
            .arg("-o")
            .arg(&program)
            .status();
        let built = built.unwrap_or_else(|error| panic!("{compiler} does not run: {error}"));
        assert!(built.success(), "{compiler} refuses {sample}");
        let output = Command::new(&program)
            .current_dir(root.join("samples"))
            .output();
        let output = output.expect("the sample runs");
        assert!(output.status.success());
        assert_eq!(String::from_utf8_lossy(&output.stdout), printed);
    }
}

/// The names of functions that a text has, with a parenthesis behind them.
fn functions(text: &str) -> std::collections::BTreeSet<&str> {
    let is_part = |letter: char| letter.is_ascii_alphanumeric() || letter == '_';
    let names = text
        .split('(')
        .map(|before| before.rsplit(|letter| !is_part(letter)).next());
    let is_ours = |name: &&str| name.starts_with("kelompuris_");
    names.flatten().filter(is_ours).collect()
}

#[test]
fn bad_input_is_tried_with_every_function() {
    let header = functions(include_str!("../../../include/kelompuris.h"));
    assert_eq!(header.len(), 19, "{header:?}");
    let tried = functions(include_str!("../../../tests/c/bad_input.c"));
    assert_eq!(header, tried);
}

#[test]
fn as_c11() {
    run("cc", "c", "c11");
}

#[test]
fn as_cpp17() {
    run("c++", "c++", "c++17");
}
