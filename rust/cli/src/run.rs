//! One run of the program: what it has read, what it tells, and what it is to leave. Nothing has its name before all is told.

use crate::answer::{without_number, Stop};
use crate::output::{keep, place_all, Output};
use std::ffi::OsStr;
use std::fs::{File, Metadata};
use std::io::{self, IsTerminal, Read, Write};
use std::os::fd::AsFd;
use std::os::unix::fs::PermissionsExt;
use std::path::{Path, PathBuf};

/// The largest file of the formats.
pub const LARGEST: u64 = 16_777_216;

/// Whether a path stands for standard input or output.
pub fn is_standard(path: &Path) -> bool {
    path.as_os_str() == OsStr::new("-")
}

/// The run of a command.
pub struct Run {
    /// Lines for standard output, or for standard error where a file goes to standard output.
    pub lines: Vec<u8>,
    /// What all files that were read let their readers do.
    mode: u32,
    input_is_read: bool,
    read: Vec<PathBuf>,
    outputs: Vec<Output>,
    /// The file that goes to standard output.
    standard: Option<Vec<u8>>,
}

impl Default for Run {
    fn default() -> Run {
        Run {
            lines: Vec::new(),
            mode: 0o666,
            input_is_read: false,
            read: Vec::new(),
            outputs: Vec::new(),
            standard: None,
        }
    }
}

impl Run {
    /// Opens a file or standard input, which can be read once. Outputs will be no more open than it is.
    pub fn open(&mut self, path: &Path) -> Result<Box<dyn Read>, Stop> {
        let failed = |error| Stop::failed(path, error);
        let (input, found): (Box<dyn Read>, Metadata) = if is_standard(path) {
            if self.input_is_read {
                return Err(Stop::failed(path, "it can be read once only"));
            }
            self.input_is_read = true;
            let own = io::stdin().as_fd().try_clone_to_owned().map_err(failed)?;
            let file = File::from(own);
            let found = file.metadata().map_err(failed)?;
            (Box::new(file), found)
        } else {
            let file = File::open(path).map_err(failed)?;
            let found = file.metadata().map_err(failed)?;
            self.read.push(path.to_path_buf());
            (Box::new(file), found)
        };
        self.mode &= found.permissions().mode();
        Ok(input)
    }

    /// The bytes of a file. Of one past the limit just one byte more than that is read: enough for its refusal.
    pub fn load(&mut self, path: &Path) -> Result<Vec<u8>, Stop> {
        let mut bytes = Vec::new();
        let mut input = self.open(path)?.take(LARGEST + 1);
        match input.read_to_end(&mut bytes) {
            Ok(_) => Ok(bytes),
            Err(error) => Err(Stop::failed(path, error)),
        }
    }

    /// The bytes of a text, of any size.
    pub fn load_text(&mut self, path: &Path) -> Result<Vec<u8>, Stop> {
        let mut bytes = Vec::new();
        match self.open(path)?.read_to_end(&mut bytes) {
            Ok(_) => Ok(bytes),
            Err(error) => Err(Stop::failed(path, error)),
        }
    }

    /// Adds a line to what is told.
    pub fn line(&mut self, line: impl AsRef<str>) {
        self.lines.extend_from_slice(line.as_ref().as_bytes());
        self.lines.push(b'\n');
    }

    /// Adds a line of numbers with a space between them.
    pub fn numbers(&mut self, numbers: &[u32]) {
        let texts: Vec<String> = numbers.iter().map(u32::to_string).collect();
        self.line(texts.join(" "));
    }

    /// Refuses an output that is one of the files that were read.
    pub fn keep_inputs(&self, target: &Path) -> Result<(), Stop> {
        self.read.iter().try_for_each(|path| keep(path, target))
    }

    /// Has a file put at `path`, or written to standard output.
    pub fn put_file(&mut self, path: &Path, bytes: &[u8], force: bool) -> Result<(), Stop> {
        if !is_standard(path) {
            self.outputs
                .push(Output::file(path, bytes, self.mode, force)?);
            return Ok(());
        }
        let why = match (&self.standard, io::stdout().is_terminal()) {
            (Some(_), _) => "one file can be written to standard output, not two",
            (_, true) => "standard output is a terminal: give a file, or a program that reads it",
            _ => {
                self.standard = Some(bytes.to_vec());
                return Ok(());
            }
        };
        Err(Stop::Failed(why.to_string()))
    }

    /// Has a folder of files with these names and texts put at `path`.
    pub fn put_folder(&mut self, path: &Path, files: &[(String, String)]) -> Result<(), Stop> {
        if is_standard(path) {
            let why = "a folder cannot be written to standard output";
            return Err(Stop::Failed(why.to_string()));
        }
        self.outputs.push(Output::folder(path, files, self.mode)?);
        Ok(())
    }

    /// Ends the run: tells all, then, unless it is stopped short of its result, writes to standard output and gives the outputs their names.
    pub fn end(mut self, done: Result<(), Stop>) -> Result<(), Stop> {
        let found = matches!(done, Ok(()) | Err(Stop::Found(_)));
        let standard = self.standard.take().filter(|_| found);
        if standard.is_some() {
            io::stderr()
                .write_all(&self.lines)
                .map_err(|error| Stop::Failed(format!("standard error: {error}")))?;
        }
        tell(standard.as_deref().unwrap_or(&self.lines))?;
        if found {
            place_all(&self.outputs)?;
        }
        done
    }
}

/// Writes to standard output.
fn tell(bytes: &[u8]) -> Result<(), Stop> {
    let failed = |why: &str| Stop::Failed(format!("standard output: {why}"));
    if bytes.is_empty() {
        return Ok(());
    }
    if crate::closed::output_was_closed() {
        return Err(failed("it is closed"));
    }
    let mut output = io::stdout();
    let told = output.write_all(bytes).and_then(|()| output.flush());
    told.map_err(|error| failed(&without_number(&error)))
}
