//! Completions for shells, and progress on a terminal.

mod common;

use common::{fresh, in_shell, run};
use scenes::worked::h;
use std::fs;
use std::path::Path;
use std::process::Command;

/// What bash offers for the last of these words.
fn offered(folder: &Path, words: &[&str]) -> Vec<String> {
    let line = "source <(\"$0\" completions bash)
        COMP_WORDS=(kelompuris \"$@\"); COMP_CWORD=$#
        _kelompuris
        printf '%s\\n' \"${COMPREPLY[@]}\"";
    let told = in_shell(folder, line, words);
    assert_eq!((told.status, told.err.as_str()), (0, ""), "{told:?}");
    let lines = told.out.lines().filter(|line| !line.is_empty());
    let mut lines: Vec<String> = lines.map(str::to_string).collect();
    lines.sort();
    lines
}

#[test]
fn bash_completes_commands_options_and_files() {
    let folder = fresh("bash");
    fs::write(folder.join("a room.b3d"), h()).unwrap();
    assert_eq!(offered(&folder, &["me"]), ["mend", "mesh"]);
    assert_eq!(offered(&folder, &["--v"]), ["--version"]);
    assert_eq!(
        offered(&folder, &["mend", "--"]),
        ["--force", "--help", "--report"]
    );
    assert_eq!(offered(&folder, &["diff", "hall.b3d", "--j"]), ["--json"]);
    assert_eq!(offered(&folder, &["check", "ha"]), ["hall.b3d"]);
    assert_eq!(offered(&folder, &["check", "a"]), ["a room.b3d"]);
    assert_eq!(offered(&folder, &["diff", "--raw", "ki"]), ["kitchen.b3d"]);
    assert_eq!(offered(&folder, &["stream", "--piece", ""]), [""; 0]);
    assert_eq!(offered(&folder, &["stream", "ha"]), [""; 0]);
    assert_eq!(
        offered(&folder, &["completions", ""]),
        ["bash", "fish", "zsh"]
    );
}

/// The commands and their options by the usage lines of the help.
fn commands() -> Vec<(String, Vec<String>)> {
    let help = run(&fresh("commands"), &["--help"]).out;
    let mut commands: Vec<(String, Vec<String>)> = Vec::new();
    let usage = help.lines().take_while(|line| !line.is_empty());
    for line in usage.filter_map(|line| line.get(7..)?.strip_prefix("kelompuris ")) {
        let (command, rest) = line.split_once(' ').unwrap_or((line, ""));
        let words = rest.split(|letter: char| !letter.is_ascii_lowercase() && letter != '-');
        let options = words
            .filter(|word| word.starts_with("--"))
            .map(str::to_string);
        match commands.last_mut().filter(|(name, _)| name == command) {
            Some((_, before)) => before.extend(options),
            None if command.starts_with('-') => {}
            None => commands.push((command.to_string(), options.collect())),
        }
    }
    assert_eq!(commands.len(), 16);
    commands
}

#[test]
fn every_shell_knows_all_commands_and_options() {
    let folder = fresh("shells");
    for shell in ["bash", "zsh", "fish"] {
        let printed = run(&folder, &["completions", shell]);
        assert_eq!((printed.status, printed.err.as_str()), (0, ""));
        for (command, options) in commands() {
            let named = |line: &&str| {
                line.contains(&format!(" {command}")) || line.contains(&format!("'{command}:"))
            };
            let own: Vec<&str> = printed.out.lines().filter(named).collect();
            assert!(!own.is_empty(), "{shell} {command}");
            for option in options {
                let name = match shell {
                    "fish" => format!("-l {}", option.trim_start_matches('-')),
                    _ => option,
                };
                assert!(
                    own.iter().any(|line| line.contains(&name)),
                    "{shell} {command} {name}"
                );
            }
        }
        // The shell itself, where it is installed, finds no fault in them.
        fs::write(folder.join("script"), &printed.out).unwrap();
        match Command::new(shell)
            .arg("-n")
            .arg(folder.join("script"))
            .output()
        {
            Ok(told) => assert!(told.status.success(), "{told:?}"),
            Err(_) => eprintln!("no {shell} here: its completions are not parsed"),
        }
    }
    run(&folder, &["completions", "csh"]).stops(2, "not such a shell");
}

#[test]
fn progress_is_told_on_a_terminal_only() {
    let folder = fresh("progress");
    fs::create_dir(folder.join("rooms")).unwrap();
    for number in 0..60 {
        fs::write(folder.join(format!("rooms/{number}.b3d")), h()).unwrap();
    }
    let program = env!("CARGO_BIN_EXE_kelompuris");
    for form in ["check", "check --json"] {
        let piped = in_shell(&folder, &format!("{program} {form} rooms"), &[]);
        assert_eq!((piped.status, piped.err.as_str()), (0, ""));
        // On the terminal that `script` makes, with the answers elsewhere.
        let line = format!("script -qec '{program} {form} rooms > out' /dev/null");
        let told = in_shell(&folder, &line, &[]);
        assert_eq!(told.status, 0, "{told:?}");
        assert!(told.out.contains("\r50 of 60"), "{told:?}");
        // Nothing of it is left to be seen.
        assert!(told.out.ends_with("\r\u{1b}[K"), "{told:?}");
        assert_eq!(fs::read_to_string(folder.join("out")).unwrap(), piped.out);
        let few = format!("script -qec '{program} {form} hall.b3d > out' /dev/null");
        assert_eq!(in_shell(&folder, &few, &[]).out, "");
    }
}
