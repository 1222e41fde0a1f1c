//! The table of commands, and the words of a command line: a command, its options, wherever they stand, and its files and folders. Behind `--` nothing
//! is an option. Help, manual page and completions are made from the table.

use crate::answer::{printable, Stop};
use std::ffi::OsString;
use std::path::{Path, PathBuf};

/// What an option takes.
#[derive(Clone, Copy, PartialEq, Eq)]
pub enum Takes {
    Nothing,
    Number,
    File,
}

/// What a command's plain words are.
#[derive(Clone, Copy, PartialEq, Eq)]
pub enum Plain {
    Nothing,
    Files,
    Words(&'static [&'static str]),
}

/// A command: its options, what else it takes, how it is used, what it does and how it ends.
pub struct Command {
    pub name: &'static str,
    pub options: &'static [(&'static str, Takes)],
    pub plain: Plain,
    pub usage: &'static [&'static str],
    /// What it does, in a few words.
    pub short: &'static str,
    /// What it does, whole.
    pub about: &'static str,
    /// What the exit statuses 0, 1 and 2 mean.
    pub status: [&'static str; 3],
}

const LENIENT: (&str, Takes) = ("--lenient", Takes::Nothing);
const JSON: (&str, Takes) = ("--json", Takes::Nothing);
const FORCE: (&str, Takes) = ("--force", Takes::Nothing);
const CHECK: (&str, Takes) = ("--check", Takes::Nothing);
const TABLES: (&str, Takes) = ("--tables", Takes::Nothing);

/// The status 2 of commands that have no other.
const TROUBLE: &str = "trouble";
const ONE_FILE: [&str; 3] = ["accepted", "refused", TROUBLE];

pub static COMMANDS: [Command; 16] = [
    Command {
        name: "check",
        options: &[LENIENT, JSON],
        plain: Plain::Files,
        usage: &["[--lenient] [--json] FILE.."],
        short: "what each file holds, or why it is refused",
        about: "one line for each file: accepted and what it holds, or the refusal's number, its place and what that means. Of a folder it takes each \
                .b3d in it and below it. With --json a line is a JSON object",
        status: ["all accepted", "some refused", "some unreadable"],
    },
    Command {
        name: "list",
        options: &[LENIENT],
        plain: Plain::Files,
        usage: &["[--lenient] FILE"],
        short: "numbers for programs, and the name of each node",
        about: "number and place; if accepted version and n_texs, the ten row counts and the name of each node",
        status: ONE_FILE,
    },
    Command {
        name: "tree",
        options: &[LENIENT],
        plain: Plain::Files,
        usage: &["[--lenient] FILE"],
        short: "nodes as a tree; textures and brushes",
        about: "its nodes as a tree, each with its kind, mesh, weights, keys and ANIM; its textures and brushes",
        status: ONE_FILE,
    },
    Command {
        name: "explain",
        options: &[LENIENT],
        plain: Plain::Files,
        usage: &["[--lenient] FILE"],
        short: "where and why a file is refused",
        about: "what `check` says of one file, and of a refusal the chunks around its place and the number there; no name is told",
        status: ONE_FILE,
    },
    Command {
        name: "stream",
        options: &[("--piece", Takes::Number)],
        plain: Plain::Nothing,
        usage: &["[--piece N]"],
        short: "a file that comes by standard input, never held",
        about: "the first three lines of `list` for a file that comes by standard input: it is taken N bytes at a time (1 to 65536, 200 without N) and never \
                held",
        status: ONE_FILE,
    },
    Command {
        name: "label",
        options: &[],
        plain: Plain::Files,
        usage: &["FILE"],
        short: "the root's name and the vertices of its mesh",
        about: "number and place; if found the root's name and the vertices of its mesh, by a walk over headers that does not check the file",
        status: ["found", "no label", TROUBLE],
    },
    Command {
        name: "tables",
        options: &[LENIENT],
        plain: Plain::Files,
        usage: &["[--lenient] FILE DIR"],
        short: "the ten tables as texts",
        about: "the ten tables of a file and scene.tsv (version, n_texs, how floats are written) as texts in DIR, which must be new or empty",
        status: ["written", "refused", TROUBLE],
    },
    Command {
        name: "build",
        options: &[LENIENT, FORCE],
        plain: Plain::Files,
        usage: &["[--lenient] [--force] DIR OUT"],
        short: "the shortest file with such tables",
        about: "the shortest file with the tables in such a DIR",
        status: ["written", "refused", TROUBLE],
    },
    Command {
        name: "clear",
        options: &[FORCE],
        plain: Plain::Files,
        usage: &["[--force] FILE OUT"],
        short: "a copy without names",
        about: "a copy without names and without chunks of other tags",
        status: ["written", "refused", TROUBLE],
    },
    Command {
        name: "slip",
        options: &[FORCE, ("--show", Takes::Nothing)],
        plain: Plain::Files,
        usage: &["[--force] FILE OUT", "--show SLIP"],
        short: "twelve numbers of a scene in 12 to 32 bytes",
        about: "the slip of a file: version, n_texs and the ten row counts in 12 to 32 bytes; with --show, number and place of a slip, and if it is accepted \
                its numbers, as `list` prints them",
        status: ["written, shown", "refused", TROUBLE],
    },
    Command {
        name: "diff",
        options: &[JSON, ("--raw", Takes::File), FORCE],
        plain: Plain::Files,
        usage: &["[--json] [--raw OUT [--force]] OLD NEW"],
        short: "what differs between two files",
        about: "what differs between two files, a line for each cell, or with --json a JSON object: its table and row, counted from 0, what it means and both \
                values. If version, n_texs or the numbers of rows differ, only these are told. With --raw the list is written to OUT too, in groups of \
                seven bits",
        status: ["the same", "differs", "refused, or trouble"],
    },
    Command {
        name: "mend",
        options: &[("--report", Takes::File), FORCE],
        plain: Plain::Files,
        usage: &["[--report REPORT] [--force] FILE OUT"],
        short: "a copy whose faults are mended",
        about: "a copy of a file whose faults are mended, and a line for each: a wrong first length, brushes and textures that are not there, triangles and \
                weights of vertices that are not there, 1 to 7 spare bytes at the end of BB3D, NODE or MESH. Any other fault is refused. With --report \
                the report is written to REPORT too. The file itself is never written to",
        status: ["nothing to mend", "mended", "refused, or trouble"],
    },
    Command {
        name: "skeleton",
        options: &[CHECK, TABLES],
        plain: Plain::Files,
        usage: &["FILE", "--check FILE..", "--tables FILE DIR"],
        short: "a skeleton of cal3d, listed, checked or as tables",
        about: "of a skeleton of cal3d (CSF version 1300): number and place; if accepted the header's numbers, the two row counts, and its bones as trees, a \
                bone two spaces further in than its parent, or, more than 32 levels down, with its level before its name. With --check one line for each \
                file, as `check` does; with --tables the tables and skeleton.tsv (the header's numbers) as texts in DIR, which must be new or empty",
        status: ONE_FILE,
    },
    Command {
        name: "mesh",
        options: &[CHECK, TABLES, ("--bones", Takes::Number), ("--skeleton", Takes::File)],
        plain: Plain::Files,
        usage: &[
            "FILE [--bones N | --skeleton FILE]",
            "--check FILE.. [--bones N | --skeleton FILE]",
            "--tables FILE DIR [--bones N | --skeleton FILE]",
        ],
        short: "a mesh of cal3d, listed, checked or as tables",
        about: "the same of a mesh of cal3d (CMF version 700), with six row counts and a line for each submesh, and mesh.tsv. Its bone ids must be below a \
                count: N, or the number of bones of FILE, an accepted skeleton; without either it is 16,383, the most that a skeleton can have",
        status: ONE_FILE,
    },
    Command {
        name: "manual",
        options: &[],
        plain: Plain::Nothing,
        usage: &[""],
        short: "the manual page",
        about: "the manual page, for `man -l -`",
        status: ["printed", "", TROUBLE],
    },
    Command {
        name: "completions",
        options: &[],
        plain: Plain::Words(&["bash", "zsh", "fish"]),
        usage: &["bash | zsh | fish"],
        short: "completions for a shell",
        about: "completions of commands, options and files for a shell",
        status: ["printed", "", TROUBLE],
    },
];

/// What follows a command.
pub struct Words {
    command: &'static Command,
    flags: Vec<&'static str>,
    values: Vec<(&'static str, OsString)>,
    pub paths: Vec<PathBuf>,
    pub help: bool,
}

impl Words {
    /// The words behind a command, sorted.
    pub fn of(command: &'static Command, words: &[OsString]) -> Result<Words, Stop> {
        let mut sorted = Words {
            command,
            flags: Vec::new(),
            values: Vec::new(),
            paths: Vec::new(),
            help: false,
        };
        let mut left = words.iter();
        while let Some(word) = left.next() {
            match word.to_str() {
                Some("--") => sorted.paths.extend(left.by_ref().map(PathBuf::from)),
                Some("--help" | "-h") => sorted.help = true,
                Some(text) if text.len() > 1 && text.starts_with('-') => {
                    let found = command.options.iter().find(|(option, _)| text == *option);
                    match found {
                        Some((flag, Takes::Nothing)) => sorted.flags.push(flag),
                        Some((option, _)) => match left.next() {
                            Some(value) => sorted.values.push((option, value.clone())),
                            None => return Err(sorted.wrong(&format!("no value of {option}"))),
                        },
                        None => {
                            let text = printable(Path::new(word));
                            return Err(sorted.wrong(&format!("no option {text}")));
                        }
                    }
                }
                _ => sorted.paths.push(PathBuf::from(word)),
            }
        }
        Ok(sorted)
    }

    pub fn flag(&self, flag: &str) -> bool {
        self.flags.contains(&flag)
    }

    /// The value of an option, which may stand there once.
    pub fn value(&self, option: &str) -> Result<Option<&OsString>, Stop> {
        let mut each = self.values.iter().filter(|(name, _)| *name == option);
        match (each.next(), each.next()) {
            (first, None) => Ok(first.map(|(_, value)| value)),
            _ => Err(self.wrong(&format!("{option} twice"))),
        }
    }

    /// Wrong use of the command, and how it is used.
    pub fn wrong(&self, why: &str) -> Stop {
        let name = self.command.name;
        Stop::Failed(format!("{name}: {why}\n{}", usage([self.command])))
    }
}

/// How commands are used, a line for each form.
pub fn usage<'a>(commands: impl IntoIterator<Item = &'a Command>) -> String {
    let mut text = String::new();
    for command in commands {
        for form in command.usage {
            let before = ["usage:", "      "][usize::from(!text.is_empty())];
            let line = format!("{before} kelompuris {} {form}", command.name);
            text += line.trim_end();
            text.push('\n');
        }
    }
    text
}
