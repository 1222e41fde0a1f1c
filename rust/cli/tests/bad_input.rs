//! Bad input and bad outputs for every command: a line that says what is wrong, its status, and nothing written.

mod common;

use common::{fresh, in_shell, names_in, run, PROGRAM};
use scenes::worked::{h, t, with};
use std::ffi::{OsStr, OsString};
use std::fs::{self, File};
use std::os::unix::ffi::OsStrExt;
use std::os::unix::fs::PermissionsExt;
use std::path::Path;
use std::process::{Command, Stdio};

/// Each way to read a file, IN, and the status of one that is refused.
const READING: [(&str, i32); 21] = [
    ("check IN", 1),
    ("check --json IN", 1),
    ("list IN", 1),
    ("tree IN", 1),
    ("explain IN", 1),
    ("label IN", 1),
    ("tables IN out", 1),
    ("clear IN out", 1),
    ("slip IN out", 1),
    ("slip --show IN", 1),
    ("diff IN hall.b3d", 2),
    ("diff hall.b3d IN", 2),
    ("diff --json --raw out IN hall.b3d", 2),
    ("mend IN out", 2),
    ("mend IN out --report report", 2),
    ("skeleton IN", 1),
    ("skeleton --check IN", 1),
    ("skeleton --tables IN out", 1),
    ("mesh IN", 1),
    ("mesh --tables IN out", 1),
    ("mesh door.cmf --skeleton IN", 1),
];

/// Each way to write a file, OUT. `bad` is a scene that can be mended.
const WRITING: [&str; 8] = [
    "clear hall.b3d OUT",
    "clear --force hall.b3d OUT",
    "slip hall.b3d OUT",
    "build parts OUT",
    "mend bad OUT",
    "mend --force bad OUT",
    "mend bad good --report OUT",
    "diff hall.b3d table.b3d --raw OUT",
];

/// Each command that tells something.
const TELLING: [&str; 19] = [
    "--help",
    "--version",
    "manual",
    "completions zsh",
    "check hall.b3d",
    "check --json hall.b3d",
    "list hall.b3d",
    "list bad",
    "tree hall.b3d",
    "explain hall.b3d",
    "label hall.b3d",
    "stream",
    "slip --show slip",
    "diff hall.b3d table.b3d",
    "diff hall.b3d table.b3d --raw out",
    "mend bad out",
    "mend bad out --report report",
    "skeleton door.csf",
    "mesh door.cmf",
];

/// Runs the program with words, IN and OUT standing for a path.
fn told(folder: &Path, words: &str, path: &OsStr) -> (i32, Vec<u8>, String) {
    let word = |word: &str| match word {
        "IN" | "OUT" => path.to_os_string(),
        _ => OsString::from(word),
    };
    let mut command = Command::new(PROGRAM);
    command.args(words.split(' ').map(word)).current_dir(folder);
    outcome(&mut command)
}

fn outcome(command: &mut Command) -> (i32, Vec<u8>, String) {
    let output = command.stdin(Stdio::null()).output().unwrap();
    let told = String::from_utf8(output.stderr).expect("text on standard error");
    let status = output.status.code().expect("no signal");
    (status, output.stdout, told)
}

/// What is told is one line, or wrong use with its usage; no byte of it steers a screen.
fn is_clear(told: &str, about: &str) {
    let first = told.lines().next().unwrap_or_default();
    assert!(first.starts_with("kelompuris: "), "{about}: {told}");
    assert!(
        told.ends_with('\n') && told.lines().count() == 1,
        "{about}: {told}"
    );
    assert!(!told.contains("panicked"), "{about}: {told}");
    let steers = |letter: char| letter.is_control() && letter != '\n';
    assert!(!told.contains(steers), "{about}: {told:?}");
}

/// A folder with what the words above name.
fn prepared(name: &str) -> std::path::PathBuf {
    let folder = fresh(name);
    fs::write(folder.join("bad"), [t(), b"abc".to_vec()].concat()).unwrap();
    run(&folder, &["tables", "hall.b3d", "parts"]).is(0, "");
    run(&folder, &["slip", "hall.b3d", "slip"]).is(0, "");
    folder
}

#[test]
fn every_command_is_tried() {
    let help = run(&fresh("tried"), &["--help"]).out;
    let (_, table) = help.split_once("Exit status:\n").unwrap();
    let tried: Vec<&str> = READING
        .iter()
        .map(|(words, _)| *words)
        .chain(WRITING)
        .chain(TELLING)
        .collect();
    for command in table.lines().filter_map(|line| line.strip_prefix("  ")) {
        let command = command.split(' ').next().unwrap();
        let is = |words: &&&str| words.split(' ').next() == Some(command);
        assert!(tried.iter().any(|words| is(&words)), "{command}");
    }
}

#[test]
fn files_that_cannot_be_read() {
    let folder = prepared("cannot_be_read");
    fs::create_dir(folder.join("folder")).unwrap();
    fs::write(folder.join("closed"), h()).unwrap();
    fs::set_permissions(folder.join("closed"), fs::Permissions::from_mode(0o000)).unwrap();
    let mut inputs: Vec<&OsStr> = ["none", "none/none", "folder", "", "hall.b3d/none"]
        .map(OsStr::new)
        .to_vec();
    // Nobody can read this one from its start on.
    inputs.push(OsStr::new("/proc/self/mem"));
    let steering = OsStr::from_bytes(b"a\x1b[2J\n\xff\xc3\x28");
    inputs.push(steering);
    match File::open(folder.join("closed")) {
        Ok(_) => {
            eprintln!("this user may read every file: one that is closed to its owner is not tried")
        }
        Err(_) => inputs.push(OsStr::new("closed")),
    }
    let before = names_in(&folder);
    for input in inputs {
        for (words, _) in READING {
            let about = format!("{words} of {input:?}");
            let (status, out, told) = told(&folder, words, input);
            assert_eq!(status, 2, "{about}: {told}");
            // A check tells of each file on standard output.
            let checks = words.contains("check");
            assert!(checks || out.is_empty(), "{about}");
            assert!(!out.contains(&0x1b), "{about}");
            is_clear(&told, &about);
            assert_eq!(names_in(&folder), before, "{about}");
        }
        let about = format!("build of {input:?}");
        let (status, out, told) = told(&folder, "build IN out", input);
        assert_eq!((status, out.len()), (2, 0), "{about}: {told}");
        is_clear(&told, &about);
        assert_eq!(names_in(&folder), before, "{about}");
    }
    let mut stream = Command::new(PROGRAM);
    stream
        .arg("stream")
        .stdin(File::open("/proc/self/mem").unwrap());
    let output = stream.output().unwrap();
    assert_eq!(output.status.code(), Some(2));
    is_clear(&String::from_utf8(output.stderr).unwrap(), "stream");
}

#[test]
fn files_that_are_refused() {
    let folder = prepared("are_refused");
    fs::write(folder.join("empty"), b"").unwrap();
    let large = File::create(folder.join("large")).unwrap();
    large.set_len(16_777_217).unwrap();
    let mut begun = with(h(), 4, 16_777_217 - 8);
    begun.resize(16_777_217, 0);
    fs::write(folder.join("large_scene"), begun).unwrap();
    let steering = OsStr::from_bytes(b"a\x1b[2J\n\xff\xc3\x28");
    fs::copy(folder.join("empty"), folder.join(steering)).unwrap();
    let before = names_in(&folder);
    let inputs = ["empty", "large", "large_scene"].map(OsStr::new);
    for input in inputs.into_iter().chain([steering]) {
        for (words, refused) in READING {
            if (input, words) == (OsStr::new("large_scene"), "label IN") {
                // The walk meets no fault, and the size is not looked at.
                continue;
            }
            let about = format!("{words} of {input:?}");
            let (status, out, told) = told(&folder, words, input);
            assert_eq!(status, refused, "{about}: {told}");
            assert!(!out.contains(&0x1b), "{about}");
            is_clear(&told, &about);
            assert_eq!(names_in(&folder), before, "{about}");
        }
    }
}

#[test]
fn places_where_nothing_can_be_written() {
    let folder = prepared("nothing_written");
    fs::create_dir(folder.join("folder")).unwrap();
    let pipe = Command::new("mkfifo").arg(folder.join("pipe")).status();
    assert!(pipe.unwrap().success());
    let before = names_in(&folder);
    let long = "x".repeat(300);
    let steering = OsStr::from_bytes(b"none\x1b[2J/\xff");
    let places = [
        "/dev/full",
        "none/out",
        "folder",
        "pipe",
        ".",
        "..",
        "/",
        "",
        &long,
        "hall.b3d/x",
    ];
    for place in places.map(OsStr::new).into_iter().chain([steering]) {
        for words in WRITING.into_iter().chain(["tables hall.b3d OUT"]) {
            if (place, words) == (OsStr::new("folder"), "tables hall.b3d OUT") {
                continue;
            }
            let about = format!("{words} to {place:?}");
            let (status, out, told) = told(&folder, words, place);
            assert_eq!((status, out.len()), (2, 0), "{about}: {told}");
            is_clear(&told, &about);
            assert_eq!(names_in(&folder), before, "{about}");
        }
    }
}

#[test]
fn outputs_that_are_inputs() {
    let folder = prepared("are_inputs");
    fs::hard_link(folder.join("bad"), folder.join("second_name")).unwrap();
    let before = names_in(&folder);
    let words = [
        "clear hall.b3d hall.b3d",
        "clear hall.b3d ./hall.b3d",
        "slip hall.b3d hall.b3d",
        "tables hall.b3d hall.b3d",
        "mend bad bad",
        "mend --force bad bad",
        "mend --force bad ./bad",
        "mend --force bad second_name",
        "mend --force bad good --report bad",
        "mend --force bad good --report good",
        "diff --force hall.b3d bad --raw hall.b3d",
        "diff --force hall.b3d hall.b3d --raw ./hall.b3d",
        "skeleton --tables door.csf door.csf",
        "mesh --tables door.cmf door.cmf",
    ];
    for words in words {
        let (status, out, told) = told(&folder, words, OsStr::new(""));
        assert_eq!((status, out.len()), (2, 0), "{words}: {told}");
        is_clear(&told, words);
        assert_eq!(names_in(&folder), before, "{words}");
        assert_eq!(fs::read(folder.join("hall.b3d")).unwrap(), h());
        assert_eq!(fs::read(folder.join("bad")).unwrap()[..153], t());
    }
}

/// Each way for standard output to take nothing: what a shell writes behind the words, or a pipe that nobody reads.
#[test]
fn standard_output_that_takes_nothing() {
    let folder = prepared("takes_nothing");
    let before = names_in(&folder);
    let to_standard = WRITING.map(|words| words.replace("OUT", "-"));
    let all = to_standard.iter().map(String::as_str).chain(TELLING);
    for words in all {
        for (behind, why) in [("> /dev/full", "No space left"), (">&-", "it is closed")] {
            let about = format!("{words} {behind}");
            let told = in_shell(&folder, &format!("$0 {words} < hall.b3d {behind}"), &[]);
            assert_eq!(told.status, 2, "{about}: {told:?}");
            ends_with_reason(&told.err, "standard output: ", why, &about);
            assert_eq!(names_in(&folder), before, "{about}");
        }
        let about = format!("{words} to nobody");
        let (reader, writer) = std::io::pipe().unwrap();
        drop(reader);
        let mut command = Command::new(PROGRAM);
        command.args(words.split(' ')).current_dir(&folder);
        command.stdin(File::open(folder.join("hall.b3d")).unwrap());
        let output = command.stdout(writer).stderr(Stdio::piped()).spawn();
        let output = output.unwrap().wait_with_output().unwrap();
        assert_eq!(output.status.code(), Some(2), "{about}");
        let err = String::from_utf8(output.stderr).unwrap();
        ends_with_reason(&err, "standard output: ", "Broken pipe", &about);
        assert_eq!(names_in(&folder), before, "{about}");
    }
}

/// The last line says why; lines before it are those that a file to standard output gives way to.
fn ends_with_reason(told: &str, start: &str, why: &str, about: &str) {
    let last = told.lines().last().unwrap_or_default();
    assert!(
        last.starts_with(&format!("kelompuris: {start}{why}")),
        "{about}: {told}"
    );
    assert!(!told.contains("panicked"), "{about}: {told}");
}

#[test]
fn commands_that_tell_nothing_need_no_standard_output() {
    let folder = prepared("need_none");
    for (words, file) in [
        ("clear hall.b3d a", "a"),
        ("slip hall.b3d b", "b"),
        ("build parts c", "c"),
    ] {
        let told = in_shell(&folder, &format!("$0 {words} >&-"), &[]);
        told.is(0, "");
        assert!(folder.join(file).exists());
    }
}
