//! Runs the program, and files and folders for it.
#![allow(dead_code)] // No test uses all of them.

pub mod samples;

use scenes::sheet::{Sheet, ROW_WORDS};
use std::ffi::OsStr;
use std::fs;
use std::path::{Path, PathBuf};
use std::process::{Child, Command, Stdio};

/// What a run gives.
#[derive(Debug)]
pub struct Run {
    pub status: i32,
    pub out: String,
    pub err: String,
}

impl Run {
    /// Holds the run to an exit status and an exact standard output, and to
    /// a message exactly if the status is not 0.
    pub fn is(&self, status: i32, out: &str) {
        assert_eq!((self.status, self.out.as_str()), (status, out), "{self:?}");
        assert_eq!(self.err.is_empty(), status == 0, "{self:?}");
    }

    /// Holds the run to an exit status, no standard output, and a message with
    /// this in it.
    pub fn stops(&self, status: i32, message: &str) {
        self.is(status, "");
        assert!(self.err.contains(message), "{self:?}: no {message:?}");
    }
}

pub const PROGRAM: &str = env!("CARGO_BIN_EXE_kelompuris");

/// Runs the program in a folder.
pub fn run(folder: &Path, args: &[&str]) -> Run {
    outcome(folder, Command::new(PROGRAM).args(args))
}

/// Starts the program in a folder.
pub fn start(folder: &Path, args: &[&str]) -> Child {
    let mut command = Command::new(PROGRAM);
    command.args(args).current_dir(folder);
    command.stdout(Stdio::null()).stderr(Stdio::null());
    command.spawn().expect("the program starts")
}

/// Runs the program in a folder under a umask.
pub fn under_umask(folder: &Path, umask: u32, args: &[&str]) -> Run {
    in_shell(
        folder,
        &format!("umask {umask:o}; exec \"$0\" \"$@\""),
        args,
    )
}

/// Runs a line of a shell in a folder; \"$0\" is the program and \"$@\" are the words.
pub fn in_shell(folder: &Path, line: &str, args: &[&str]) -> Run {
    let mut shell = Command::new("bash");
    outcome(folder, shell.args(["-c", line, PROGRAM]).args(args))
}

/// The same with these bytes as its standard input.
pub fn run_on(folder: &Path, args: &[&str], input: &[u8]) -> Run {
    let path = folder.join("standard_input");
    fs::write(&path, input).expect("an input");
    let input = fs::File::open(path).expect("an input");
    outcome(folder, Command::new(PROGRAM).args(args).stdin(input))
}

/// The same where every write to a file fails.
pub fn run_on_full_disk(folder: &Path, args: &[&str]) -> Run {
    in_shell(
        folder,
        "trap '' XFSZ; ulimit -f 0; exec \"$0\" \"$@\"",
        args,
    )
}

fn outcome(folder: &Path, command: &mut Command) -> Run {
    let output = command.current_dir(folder).output();
    let output = output.expect("the program runs");
    let text = |bytes| String::from_utf8(bytes).expect("text");
    Run {
        status: output.status.code().expect("no signal"),
        out: text(output.stdout),
        err: text(output.stderr),
    }
}

/// A new folder with the samples in it.
pub fn fresh(name: &str) -> PathBuf {
    let folder = Path::new(env!("CARGO_TARGET_TMPDIR")).join(name);
    if folder.exists() {
        fs::remove_dir_all(&folder).expect("an old folder goes");
    }
    fs::create_dir_all(&folder).expect("a folder");
    for entry in fs::read_dir(sample_folder()).expect("samples") {
        let path = entry.expect("an entry").path();
        let copy = folder.join(path.file_name().expect("a name"));
        fs::copy(&path, copy).expect("a copy");
    }
    folder
}

pub fn sample_folder() -> PathBuf {
    Path::new(env!("CARGO_MANIFEST_DIR")).join("../../samples")
}

/// The names in a folder, sorted.
pub fn names_in(folder: &Path) -> Vec<String> {
    let entries = fs::read_dir(folder).expect("a folder");
    let name = |name: &OsStr| name.to_string_lossy().into_owned();
    let mut names: Vec<String> = entries
        .map(|entry| name(&entry.unwrap().file_name()))
        .collect();
    names.sort();
    names
}

/// The words of a file that the independent implementation accepts.
pub fn sheet_of(file: &[u8]) -> Sheet {
    let answer = reference::judge(reference::Mode::Strict, file);
    assert_eq!(answer.number, 0, "refused: {answer:?}");
    let words = |table: usize| answer.counts[table] as usize * ROW_WORDS[table];
    let mut tables: [Vec<u32>; 10] = std::array::from_fn(|table| vec![0; words(table)]);
    reference::read(
        reference::Mode::Strict,
        file,
        &mut tables.each_mut().map(Vec::as_mut_slice),
    );
    Sheet {
        tables,
        counts: answer.counts,
        version: answer.version,
        n_texs: answer.n_texs,
        names: file.to_vec(),
    }
}
