//! Answers in plain words, and why a command stops.

use crate::run::is_standard;
use kelompuris::{Answer, Refusal, Subject};
use std::fmt::Display;
use std::os::unix::ffi::OsStrExt;
use std::path::Path;

/// Why a command ends without its result.
#[derive(Debug)]
pub enum Stop {
    /// The proved functions refuse the file or the tables.
    Refused(String),
    /// There is what was looked for: differences, or faults that are mended.
    Found(String),
    /// Wrong use, or a file that cannot be read or written.
    Failed(String),
}

impl Stop {
    /// A refusal of what stands at this path.
    pub fn refused(path: &Path, refusal: Refusal) -> Stop {
        Stop::Refused(about(path, refusal))
    }

    /// A file or folder that cannot be used.
    pub fn failed(path: &Path, why: impl Display) -> Stop {
        Stop::Failed(about(path, without_number(&why)))
    }
}

/// A line about a file, or about standard input.
pub fn about(path: &Path, what: impl Display) -> String {
    match is_standard(path) {
        true => format!("standard input: {what}"),
        false => format!("{}: {what}", printable(path)),
    }
}

/// Why something failed, without the number that the system has for it.
pub fn without_number(why: &impl Display) -> String {
    let why = why.to_string();
    match why.split_once(" (os error ") {
        Some((words, _)) => words.to_string(),
        None => why,
    }
}

/// A path on one line: bytes that steer a screen and those of no text as \\xNN.
pub fn printable(path: &Path) -> String {
    let mut text = String::new();
    for part in path.as_os_str().as_bytes().utf8_chunks() {
        for letter in part.valid().chars() {
            match letter.is_control() {
                true => text.extend(letter.to_string().bytes().map(escaped)),
                false => text.push(letter),
            }
        }
        text.extend(part.invalid().iter().copied().map(escaped));
    }
    text
}

fn escaped(byte: u8) -> String {
    format!("\\x{byte:02x}")
}

/// An answer of the judge of scenes: the refusal, or what the file holds.
pub fn in_words(answer: &Result<Answer, Refusal>) -> String {
    match answer {
        Ok(held) => {
            let slots = (held.n_texs != 0).then(|| format!("n_texs {}", held.n_texs));
            accepted(Subject::Scene, held.version, slots, &held.counts)
        }
        Err(refusal) => refusal.to_string(),
    }
}

/// What an accepted file holds: its version, what else is to be said, and the
/// rows of tables that have any.
pub fn accepted(subject: Subject, version: u32, more: Option<String>, counts: &[u32]) -> String {
    let mut parts = vec![format!("accepted, version {version}")];
    parts.extend(more);
    for (table, &count) in subject.tables().iter().zip(counts) {
        match count {
            0 => {}
            1 => parts.push(format!("1 {}", table.one)),
            _ => parts.push(format!("{count} {}", table.many)),
        }
    }
    parts.join(", ")
}
