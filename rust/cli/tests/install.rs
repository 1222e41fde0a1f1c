//! `make install`: what it puts where, and that a C program finds it there.

mod common;

use common::{fresh, in_shell, run, PROGRAM};
use std::fs;
use std::path::Path;
use std::process::Command;

const INSTALLED: [&str; 8] = [
    "bin/kelompuris",
    "include/kelompuris.h",
    "lib/libkelompuris_c.a",
    "lib/pkgconfig/kelompuris.pc",
    "share/bash-completion/completions/kelompuris",
    "share/fish/vendor_completions.d/kelompuris.fish",
    "share/man/man1/kelompuris.1",
    "share/zsh/site-functions/_kelompuris",
];

/// The value of a line of the pkg-config file.
fn value<'a>(text: &'a str, name: &str) -> &'a str {
    let mut lines = text.lines().filter_map(|line| line.strip_prefix(name));
    lines.next().unwrap().trim_start_matches(": ")
}

#[test]
fn all_that_is_installed_is_found() {
    let folder = fresh("installed");
    let prefix = folder.join("prefix");
    let root = Path::new(env!("CARGO_MANIFEST_DIR")).join("../..");
    let made = Command::new("make")
        .arg("install")
        .arg(format!("CLI={PROGRAM}"))
        .arg(format!("PREFIX={}", prefix.display()))
        .current_dir(root)
        .output()
        .expect("make runs");
    assert!(made.status.success(), "{made:?}");
    for file in INSTALLED {
        assert!(prefix.join(file).is_file(), "{file}");
    }
    for shell in [
        ("bash", INSTALLED[4]),
        ("fish", INSTALLED[5]),
        ("zsh", INSTALLED[7]),
    ] {
        let printed = run(&folder, &["completions", shell.0]).out;
        assert_eq!(fs::read_to_string(prefix.join(shell.1)).unwrap(), printed);
    }
    let package = fs::read_to_string(prefix.join(INSTALLED[3])).unwrap();
    let version = run(&folder, &["--version"]).out;
    assert_eq!(
        format!("kelompuris {}\n", value(&package, "Version")),
        version
    );
    let program = "#include <kelompuris.h>\n#include <stdio.h>\n\
                   int main(void) { printf(\"%u\\n\", kelompuris_b3d_judge(0, 0, 0).number); return 0; }\n";
    fs::write(folder.join("program.c"), program).unwrap();
    let (flags, libraries) = (value(&package, "Cflags"), value(&package, "Libs"));
    let line = format!("cc {flags} program.c {libraries} -o program && ./program");
    in_shell(&folder, &line, &[]).is(0, "1\n");
}
