//! `-` for standard input and output, and how each command ends.

mod common;

use common::{fresh, in_shell, names_in, run, run_on};
use scenes::worked::{cleared_h, h, t, with};
use std::collections::BTreeMap;
use std::fs;

#[test]
fn files_by_standard_input() {
    let folder = fresh("standard_in");
    let kitchen = fs::read(folder.join("kitchen.b3d")).unwrap();
    for command in ["list", "tree", "explain", "label"] {
        let plain = run(&folder, &[command, "kitchen.b3d"]);
        run_on(&folder, &[command, "-"], &kitchen).is(0, &plain.out);
    }
    let told = "standard input: accepted, version 1, 1 node\n";
    run_on(&folder, &["check", "-"], &h()).is(0, told);
    run_on(&folder, &["check", "--", "-"], &h()).is(0, told);
    let both = format!("{told}hall.b3d: accepted, version 1, 1 node\n");
    run_on(&folder, &["check", "-", "hall.b3d"], &h()).is(0, &both);
    let bad = "standard input: 7 at 149: an id that names nothing\n";
    run_on(&folder, &["check", "-"], &with(t(), 149, 3)).is(1, bad);
    run_on(&folder, &["clear", "-", "copy"], &h()).is(0, "");
    assert_eq!(fs::read(folder.join("copy")).unwrap(), cleared_h());
    run_on(&folder, &["slip", "-", "slip"], &h()).is(0, "");
    let slip = fs::read(folder.join("slip")).unwrap();
    run_on(&folder, &["slip", "--show", "-"], &slip).is(0, "0 0\n1 0\n0 0 1 0 0 0 0 0 0 0\n");
    run_on(&folder, &["tables", "-", "parts"], &h()).is(0, "");
    run_on(&folder, &["diff", "hall.b3d", "-"], &h()).is(0, "");
    run_on(&folder, &["diff", "-", "hall.b3d"], &h()).is(0, "");
    run_on(&folder, &["diff", "-", "-"], &h()).stops(2, "standard input: it can be read once only");
    let bones = fs::read(folder.join("door.csf")).unwrap();
    let plain = run(&folder, &["mesh", "door.cmf", "--skeleton", "door.csf"]);
    run_on(&folder, &["mesh", "door.cmf", "--skeleton", "-"], &bones).is(0, &plain.out);
    // A file of that name has a path.
    fs::write(folder.join("-"), h()).unwrap();
    run_on(&folder, &["check", "./-"], b"").is(0, "./-: accepted, version 1, 1 node\n");
}

/// Runs a line of a shell whose standard output goes to the file `out`.
fn to_out(folder: &std::path::Path, line: &str) -> (i32, Vec<u8>, String) {
    let told = in_shell(folder, &format!("({line}) > out"), &[]);
    assert_eq!(told.out, "");
    (told.status, fs::read(folder.join("out")).unwrap(), told.err)
}

#[test]
fn files_to_standard_output() {
    let folder = fresh("standard_out");
    fs::write(folder.join("bad"), [t(), b"abc".to_vec()].concat()).unwrap();
    run(&folder, &["tables", "table.b3d", "parts"]).is(0, "");
    let before = [names_in(&folder), vec!["out".to_string()]].concat();
    let no_lines = String::new();
    assert_eq!(
        to_out(&folder, "$0 clear hall.b3d -"),
        (0, cleared_h(), no_lines.clone())
    );
    assert_eq!(
        to_out(&folder, "$0 build parts -"),
        (0, t(), no_lines.clone())
    );
    let (status, slip, _) = to_out(&folder, "$0 slip hall.b3d -");
    assert_eq!((status, slip.len()), (0, 12));
    // Lines give way to a file.
    let line = "byte 153: 3 spare bytes taken out\n";
    let told = to_out(&folder, "$0 mend bad -");
    assert_eq!((told.0, &told.1), (1, &t()));
    assert!(told.2.contains(line), "{}", told.2);
    let told = to_out(&folder, "$0 diff --raw - table.b3d hall.b3d");
    assert_eq!((told.0, &told.1[..4]), (1, &[0, 0, 5, 1][..]));
    assert!(told.2.contains("number of meshes: 1 -> 0\n"), "{}", told.2);
    // One after the other, and a refused file brings nothing.
    let both = to_out(&folder, "$0 mend bad - 2>/dev/null | $0 clear - -");
    assert_eq!(both, (0, t(), no_lines));
    fs::write(folder.join("refused"), with(t(), 77, 47)).unwrap();
    let told = to_out(&folder, "$0 clear refused -");
    assert_eq!((told.0, told.1.len()), (1, 0));
    assert!(
        told.2.starts_with("kelompuris: refused: 5 at 117"),
        "{}",
        told.2
    );
    let told = to_out(&folder, "$0 mend bad - --report -");
    assert_eq!((told.0, told.1.len()), (2, 0));
    assert!(told.2.contains("not two"), "{}", told.2);
    let told = to_out(&folder, "$0 tables hall.b3d -");
    assert_eq!((told.0, told.1.len()), (2, 0));
    fs::remove_file(folder.join("refused")).unwrap();
    let mut after = names_in(&folder);
    after.sort();
    let mut before = before;
    before.sort();
    assert_eq!(after, before);
}

#[test]
fn no_file_is_written_to_a_terminal() {
    let folder = fresh("terminal");
    let line = "script -qec '\"$0\" clear hall.b3d -' /dev/null";
    let line = line.replace("\"$0\"", env!("CARGO_BIN_EXE_kelompuris"));
    let told = in_shell(&folder, &line, &[]);
    assert_eq!(told.status, 2, "{told:?}");
    assert!(
        told.out.contains("standard output is a terminal"),
        "{told:?}"
    );
    assert!(!told.out.contains("BB3D"), "{told:?}");
}

/// What a refused file, another one and no file bring, of each command: the words for a run that ends with 0, with 1 and with 2.
const ENDS: [(&str, [&str; 3]); 16] = [
    (
        "check",
        ["check hall.b3d", "check hall.b3d bad", "check bad none"],
    ),
    ("list", ["list hall.b3d", "list bad", "list none"]),
    ("tree", ["tree hall.b3d", "tree bad", "tree none"]),
    (
        "explain",
        ["explain hall.b3d", "explain bad", "explain none"],
    ),
    (
        "stream",
        ["stream < hall.b3d", "stream < bad", "stream --piece 0"],
    ),
    ("label", ["label hall.b3d", "label door.csf", "label none"]),
    (
        "tables",
        ["tables hall.b3d a", "tables bad b", "tables none b"],
    ),
    ("build", ["build parts c", "build wrong d", "build none d"]),
    ("clear", ["clear hall.b3d e", "clear bad f", "clear none f"]),
    ("slip", ["slip hall.b3d g", "slip bad i", "slip none i"]),
    (
        "diff",
        [
            "diff hall.b3d hall.b3d",
            "diff hall.b3d table.b3d",
            "diff hall.b3d bad",
        ],
    ),
    ("mend", ["mend hall.b3d j", "mend spare k", "mend cut l"]),
    (
        "skeleton",
        ["skeleton door.csf", "skeleton hall.b3d", "skeleton none"],
    ),
    ("mesh", ["mesh door.cmf", "mesh hall.b3d", "mesh none"]),
    ("manual", ["manual", "", "manual hall.b3d"]),
    ("completions", ["completions bash", "", "completions sh"]),
];

#[test]
fn each_command_ends_as_the_table_says() {
    let folder = fresh("ends");
    fs::write(folder.join("bad"), with(t(), 149, 3)).unwrap();
    fs::write(folder.join("cut"), with(t(), 77, 47)).unwrap();
    fs::write(folder.join("spare"), [t(), b"abc".to_vec()].concat()).unwrap();
    for parts in ["parts", "wrong"] {
        run(&folder, &["tables", "hall.b3d", parts]).is(0, "");
    }
    let scene = fs::read_to_string(folder.join("wrong/scene.tsv")).unwrap();
    fs::write(
        folder.join("wrong/scene.tsv"),
        scene.replace("\n1\t", "\n100\t"),
    )
    .unwrap();
    let help = run(&folder, &["--help"]).out;
    let (_, table) = help.split_once("Exit status:\n").unwrap();
    let mut told = BTreeMap::new();
    for line in table.lines().filter_map(|line| line.strip_prefix("  ")) {
        let command = line.split(' ').next().unwrap();
        told.insert(
            command,
            [" 0 ", " 1 ", " 2 "].map(|number| line.contains(number)),
        );
    }
    let commands: Vec<&str> = ENDS.map(|(command, _)| command).to_vec();
    assert_eq!(told.len(), ENDS.len(), "{told:?}");
    for (command, ends) in ENDS {
        assert!(commands.contains(&command));
        for (status, words) in ends.iter().enumerate() {
            assert_eq!(
                told[command][status],
                !words.is_empty(),
                "{command} {status}"
            );
            if !words.is_empty() {
                let ended = in_shell(&folder, &format!("$0 {words}"), &[]);
                assert_eq!(ended.status, status as i32, "{words}: {ended:?}");
                assert_eq!(ended.err.is_empty(), status == 0, "{words}: {ended:?}");
            }
        }
    }
}

#[test]
fn the_manual_page_is_the_one_that_is_printed() {
    let page = include_str!("../../../docs/kelompuris.1");
    let printed = run(&fresh("manual"), &["manual"]);
    assert!(printed.out == page, "kelompuris manual > docs/kelompuris.1");
}
