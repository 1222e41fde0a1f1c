//! Wrong use, and files that cannot be read or written: status 2.

mod common;

use common::{fresh, names_in, run, run_on_full_disk};
use std::fs;

#[test]
fn wrong_use() {
    let folder = fresh("wrong_use");
    let wrong: [&[&str]; 38] = [
        &[],
        &["check"],
        &["list"],
        &["list", "hall.b3d", "table.b3d"],
        &["label"],
        &["label", "hall.b3d", "table.b3d"],
        &["tables", "hall.b3d"],
        &["build", "hall.b3d"],
        &["clear", "hall.b3d"],
        &["clear", "hall.b3d", "a", "b"],
        &["slip", "hall.b3d"],
        &["slip", "--show"],
        &["slip", "--show", "a", "b"],
        &["diff", "hall.b3d"],
        &["diff", "--lenient", "hall.b3d", "hall.b3d"],
        &["diff", "hall.b3d", "hall.b3d", "--raw"],
        &["mend", "hall.b3d"],
        &["mend", "hall.b3d", "a", "--report"],
        &["skeleton"],
        &["skeleton", "door.csf", "door.csf"],
        &["skeleton", "--check"],
        &["skeleton", "--tables", "door.csf"],
        &["mesh"],
        &["mesh", "--bones", "4"],
        &["mesh", "door.cmf", "--bones"],
        &["mesh", "door.cmf", "--bones", "-1"],
        &["mesh", "door.cmf", "--bones", "4294967296"],
        &["mesh", "door.cmf", "--bones", "door.csf"],
        &["mesh", "--check", "--bones", "4"],
        &["mesh", "--tables", "door.cmf", "--skeleton", "door.csf"],
        &["mesh", "door.cmf", "--bones", "4", "--skeleton", "door.csf"],
        &["Check", "hall.b3d"],
        &["--help", "hall.b3d"],
        &["hall.b3d"],
        &["check", "--lenient"],
        &["clear", "--lenient", "hall.b3d", "a"],
        &["label", "--lenient", "hall.b3d"],
        &["--lenient", "check", "hall.b3d"],
    ];
    let before = names_in(&folder);
    for args in wrong {
        run(&folder, args).stops(2, "usage: kelompuris ");
    }
    assert_eq!(names_in(&folder), before);
}

#[test]
fn help_names_all_commands() {
    let help = run(&fresh("help"), &["--help"]);
    assert_eq!((help.status, help.err.as_str()), (0, ""));
    let commands = [
        "check", "list", "tree", "label", "tables", "build", "clear", "slip", "diff", "mend",
        "skeleton", "mesh",
    ];
    for command in commands {
        let line = |line: &str| line.split(' ').next() == Some(command);
        assert!(help.out.lines().any(line), "{command}");
    }
}

#[test]
fn options_stand_anywhere() {
    let folder = fresh("anywhere");
    let hall = "hall.b3d: accepted, version 1, 1 node\n";
    run(&folder, &["check", "hall.b3d", "--lenient"]).is(0, hall);
    run(&folder, &["check", "--", "hall.b3d"]).is(0, hall);
    run(&folder, &["check", "--loose", "hall.b3d"]).stops(2, "check: no option --loose");
    run(&folder, &["list", "--", "--lenient"]).stops(2, "--lenient: ");
    let before = run(&folder, &["mesh", "--bones", "4", "door.cmf"]);
    let behind = run(&folder, &["mesh", "door.cmf", "--bones", "4"]);
    assert_eq!((before.status, before.out), (0, behind.out));
    let header = include_str!("../../../include/kelompuris.h");
    let version = header.split("KELOMPURIS_VERSION \"").nth(1).unwrap();
    let version = version.split('"').next().unwrap();
    run(&folder, &["--version"]).is(0, &format!("kelompuris {version}\n"));
    let help = run(&folder, &["--help"]).out;
    for words in [&["-h"][..], &["help"]] {
        run(&folder, words).is(0, &help);
    }
}

#[test]
fn help_on_one_command() {
    let folder = fresh("help_on_one");
    let told = "\
usage: kelompuris explain [--lenient] FILE

what `check` says of one file, and of a refusal the chunks around its place and
the number there; no name is told

A red, green, blue or alpha that is not a number or lies outside 0 to 1 is
refused; with --lenient any is taken. `clear`, `slip`, `diff` and `mend` take
any.

FILE may be -, which is standard input; OUT may be -, which is standard output:
lines that are told then go to standard error. A file of that name is ./-.

Exit status:
  explain      0 accepted         1 refused       2 trouble
Trouble is wrong usage, or a file that cannot be read or written.
";
    for words in [
        &["help", "explain"][..],
        &["explain", "--help"],
        &["explain", "-h"],
        &["explain", "hall.b3d", "--help", "--lenient"],
    ] {
        run(&folder, words).is(0, told);
    }
    run(&folder, &["help", "hall.b3d"]).stops(2, "no command help");
}

#[test]
fn paths_do_not_steer_a_screen() {
    let folder = fresh("paths");
    let name = "a\u{1b}[2J\nb\u{e9}.b3d";
    fs::copy(folder.join("hall.b3d"), folder.join(name)).unwrap();
    let line = "a\\x1b[2J\\x0ab\u{e9}.b3d: accepted, version 1, 1 node\n";
    run(&folder, &["check", name]).is(0, line);
}

#[test]
fn files_that_cannot_be_read() {
    let folder = fresh("unreadable");
    fs::create_dir(folder.join("dir")).unwrap();
    let before = names_in(&folder);
    for missing in ["none", "dir"] {
        run(&folder, &["list", missing]).stops(2, missing);
        run(&folder, &["label", missing]).stops(2, missing);
        run(&folder, &["tables", missing, "out"]).stops(2, missing);
        run(&folder, &["build", missing, "out"]).stops(2, missing);
        run(&folder, &["clear", missing, "out"]).stops(2, missing);
        run(&folder, &["slip", missing, "out"]).stops(2, missing);
        run(&folder, &["slip", "--show", missing]).stops(2, missing);
        run(&folder, &["diff", "hall.b3d", missing]).stops(2, missing);
        run(&folder, &["mend", missing, "out"]).stops(2, missing);
        run(&folder, &["skeleton", missing]).stops(2, missing);
        run(&folder, &["skeleton", "--tables", missing, "out"]).stops(2, missing);
        run(&folder, &["mesh", missing]).stops(2, missing);
        run(&folder, &["mesh", "--tables", missing, "out"]).stops(2, missing);
    }
    assert_eq!(names_in(&folder), before);
}

#[test]
fn places_that_cannot_be_written() {
    let folder = fresh("unwritable");
    fs::create_dir(folder.join("full")).unwrap();
    fs::write(folder.join("full/kept"), "kept").unwrap();
    run(&folder, &["tables", "hall.b3d", "t"]).is(0, "");
    let before = names_in(&folder);
    for target in ["none/out", "full", ".."] {
        run(&folder, &["clear", "hall.b3d", target]).stops(2, target);
        run(&folder, &["slip", "hall.b3d", target]).stops(2, target);
        run(&folder, &["build", "t", target]).stops(2, target);
        run(&folder, &["mend", "hall.b3d", target]).stops(2, target);
        run(&folder, &["diff", "hall.b3d", "hall.b3d", "--raw", target]).stops(2, target);
        run(&folder, &["tables", "hall.b3d", target]).stops(2, target);
        run(&folder, &["skeleton", "--tables", "door.csf", target]).stops(2, target);
        run(&folder, &["mesh", "--tables", "door.cmf", target]).stops(2, target);
    }
    run(&folder, &["tables", "hall.b3d", "table.b3d"]).stops(2, "table.b3d");
    // A name that stands for something else is not replaced.
    std::os::unix::fs::symlink("hall.b3d", folder.join("link")).unwrap();
    run(&folder, &["clear", "hall.b3d", "link"]).stops(2, "not a plain file");
    fs::remove_file(folder.join("link")).unwrap();
    assert_eq!(names_in(&folder), before);
    assert_eq!(names_in(&folder.join("full")), ["kept"]);
}

#[test]
fn a_failing_write_leaves_nothing() {
    let folder = fresh("full_disk");
    run(&folder, &["tables", "kitchen.b3d", "parts"]).is(0, "");
    fs::write(folder.join("old"), "old").unwrap();
    let before = names_in(&folder);
    for target in ["new", "old"] {
        run_on_full_disk(&folder, &["clear", "--force", "kitchen.b3d", target]).stops(2, target);
        run_on_full_disk(&folder, &["slip", "--force", "kitchen.b3d", target]).stops(2, target);
        run_on_full_disk(&folder, &["build", "--force", "parts", target]).stops(2, target);
        run_on_full_disk(&folder, &["tables", "kitchen.b3d", target]).stops(2, target);
        run_on_full_disk(&folder, &["skeleton", "--tables", "door.csf", target]).stops(2, target);
        run_on_full_disk(&folder, &["mesh", "--tables", "door.cmf", target]).stops(2, target);
    }
    assert_eq!(names_in(&folder), before);
    assert_eq!(fs::read(folder.join("old")).unwrap(), b"old");
}
