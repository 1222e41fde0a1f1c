//! What a command leaves: nothing when it is killed, and files no more open than those that it read.

mod common;

use common::{fresh, names_in, run, start, under_umask};
use scenes::worked::{t, with};
use std::fs::{self, Permissions};
use std::os::unix::fs::{OpenOptionsExt, PermissionsExt};
use std::os::unix::process::ExitStatusExt;
use std::path::Path;
use std::process::Command;

/// Whether a process writes a file in a folder that has no name.
fn writes_unnamed(process: u32, folder: &Path) -> bool {
    let Ok(files) = fs::read_dir(format!("/proc/{process}/fd")) else {
        return false;
    };
    let targets = files.filter_map(|file| fs::read_link(file.ok()?.path()).ok());
    let inside = folder.canonicalize().unwrap();
    targets.into_iter().any(|target| {
        target.starts_with(&inside) && target.to_string_lossy().ends_with("(deleted)")
    })
}

#[test]
fn killed_while_it_writes_it_leaves_nothing() {
    let folder = fresh("killed");
    const O_TMPFILE: i32 = 0o20_200_000;
    let mut options = fs::OpenOptions::new();
    if let Err(error) = options.write(true).custom_flags(O_TMPFILE).open(&folder) {
        eprintln!("no files without names here, so this is not tried: {error}");
        return;
    }
    let large = scenes::rows::file_with_rows(10, 500_000);
    fs::write(folder.join("large"), &large).unwrap();
    // A first length that is wrong: there is something to report.
    fs::write(folder.join("bad"), with(large, 4, 7)).unwrap();
    fs::write(folder.join("old"), "old").unwrap();
    let before = names_in(&folder);
    let commands: [&[&str]; 4] = [
        &["tables", "large", "new"],
        &["clear", "large", "new"],
        &["clear", "--force", "large", "old"],
        &["mend", "bad", "new", "--report", "report"],
    ];
    for args in commands {
        // A run that ends before it is seen to write is tried again.
        let killed = (0..50).any(|_| {
            let mut child = start(&folder, args);
            while child.try_wait().unwrap().is_none() && !writes_unnamed(child.id(), &folder) {}
            let killed = child.kill().is_ok() && child.wait().unwrap().signal() == Some(9);
            if !killed {
                drop(fs::remove_dir_all(folder.join("new")));
                drop(fs::remove_file(folder.join("new")));
                drop(fs::remove_file(folder.join("report")));
                fs::write(folder.join("old"), "old").unwrap();
            }
            killed
        });
        assert!(killed, "{args:?} was never killed while it wrote");
        assert_eq!(names_in(&folder), before, "{args:?}");
        assert_eq!(fs::read(folder.join("old")).unwrap(), b"old");
    }
}

#[test]
fn waiting_for_its_input_it_leaves_nothing() {
    let folder = fresh("waiting");
    let made = Command::new("mkfifo").arg(folder.join("slow")).status();
    assert!(made.unwrap().success());
    let before = names_in(&folder);
    for args in [
        ["tables", "slow", "new"],
        ["clear", "slow", "new"],
        ["mend", "slow", "new"],
    ] {
        let mut child = start(&folder, &args);
        let writer = fs::OpenOptions::new().write(true).open(folder.join("slow"));
        std::io::Write::write_all(&mut writer.as_ref().unwrap(), &t()[..50]).unwrap();
        child.kill().unwrap();
        assert_eq!(child.wait().unwrap().signal(), Some(9));
        assert_eq!(names_in(&folder), before, "{args:?}");
    }
}

fn mode_of(path: &Path) -> u32 {
    fs::metadata(path).unwrap().permissions().mode() & 0o7777
}

fn set_mode(path: &Path, mode: u32) {
    fs::set_permissions(path, Permissions::from_mode(mode)).unwrap();
}

#[test]
fn outputs_are_no_more_open_than_inputs() {
    for (mode, umask, expected, expected_folder) in [
        (0o600, 0o022, 0o600, 0o700),
        (0o644, 0o022, 0o644, 0o755),
        (0o640, 0o000, 0o640, 0o750),
        (0o666, 0o027, 0o640, 0o750),
        (0o755, 0o000, 0o644, 0o755),
        (0o400, 0o022, 0o400, 0o700),
    ] {
        let folder = fresh("modes");
        fs::write(folder.join("bad"), with(t(), 4, 7)).unwrap();
        fs::write(folder.join("old"), "old").unwrap();
        for file in ["hall.b3d", "kitchen.b3d", "bad", "door.csf"] {
            set_mode(&folder.join(file), mode);
        }
        let run = |args: &[&str]| under_umask(&folder, umask, args);
        run(&["clear", "hall.b3d", "copy"]).is(0, "");
        run(&["clear", "hall.b3d", "old", "--force"]).is(0, "");
        run(&["slip", "hall.b3d", "slip"]).is(0, "");
        assert_eq!(
            run(&["mend", "bad", "good", "--report", "report"]).status,
            1
        );
        assert_eq!(
            run(&["diff", "hall.b3d", "kitchen.b3d", "--raw", "raw"]).status,
            1
        );
        run(&["tables", "hall.b3d", "parts"]).is(0, "");
        run(&["skeleton", "--tables", "door.csf", "bones"]).is(0, "");
        run(&["build", "parts", "built"]).is(0, "");
        let files = ["copy", "old", "slip", "good", "report", "raw", "built"];
        let texts = ["parts/nodes.tsv", "parts/scene.tsv", "bones/bones.tsv"];
        for file in files.iter().chain(&texts) {
            assert_eq!(
                mode_of(&folder.join(file)),
                expected,
                "{mode:o} {umask:o} {file}"
            );
        }
        for made in ["parts", "bones"] {
            assert_eq!(
                mode_of(&folder.join(made)),
                expected_folder,
                "{mode:o} {umask:o} {made}"
            );
        }
    }
}

#[test]
fn of_several_inputs_what_all_allow() {
    let folder = fresh("several_modes");
    set_mode(&folder.join("hall.b3d"), 0o640);
    set_mode(&folder.join("kitchen.b3d"), 0o604);
    let diff = ["diff", "hall.b3d", "kitchen.b3d", "--raw", "raw"];
    assert_eq!(under_umask(&folder, 0, &diff).status, 1);
    assert_eq!(mode_of(&folder.join("raw")), 0o600);
    run(&folder, &["tables", "kitchen.b3d", "parts"]).is(0, "");
    for text in names_in(&folder.join("parts")) {
        set_mode(&folder.join("parts").join(text), 0o644);
    }
    set_mode(&folder.join("parts/nodes.tsv"), 0o600);
    under_umask(&folder, 0, &["build", "parts", "built"]).is(0, "");
    assert_eq!(mode_of(&folder.join("built")), 0o600);
}
