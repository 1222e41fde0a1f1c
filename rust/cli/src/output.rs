//! Files and folders that stand either whole or not at all. A file has no name while it is written, so that nothing of it is left
//! however the program ends; where a file system knows no files without names it has a temporary one, which goes with the program too.

use crate::answer::Stop;
use crate::run::is_standard;
use crate::temporary::Temporary;
use std::ffi::{c_char, c_int, CString};
use std::fs::{self, DirBuilder, File, Metadata, OpenOptions};
use std::io::{self, Error, ErrorKind, Write};
use std::os::fd::AsRawFd;
use std::os::unix::ffi::OsStrExt;
use std::os::unix::fs::{DirBuilderExt, MetadataExt, OpenOptionsExt};
use std::path::{Path, PathBuf};

extern "C" {
    fn linkat(
        old_folder: c_int,
        old: *const c_char,
        new_folder: c_int,
        new: *const c_char,
        flags: c_int,
    ) -> c_int;
}

// Numbers of Linux.
const O_TMPFILE: i32 = 0o20_200_000;
const AT_FDCWD: c_int = -100;
const AT_SYMLINK_FOLLOW: c_int = 0x400;
const ENOENT: i32 = 2;
const EISDIR: i32 = 21;
const EINVAL: i32 = 22;
const EOPNOTSUPP: i32 = 95;

/// Where a process finds its own files by number.
const OWN_FILES: &str = "/proc/self/fd";

/// A file that is written whole and has no name of its own yet.
pub enum Draft {
    Unnamed(File),
    Named(Temporary),
}

impl Draft {
    /// Writes `bytes` to a draft in `folder`, without a name where the file system can. Its mode is `mode` less the umask.
    fn make(folder: &Path, bytes: &[u8], mode: u32) -> io::Result<Draft> {
        match Draft::unnamed(folder, bytes, mode)? {
            Some(draft) => Ok(draft),
            None => Draft::named(folder, bytes, mode),
        }
    }

    /// A draft without a name, or none where there can be no such file.
    fn unnamed(folder: &Path, bytes: &[u8], mode: u32) -> io::Result<Option<Draft>> {
        if !Path::new(OWN_FILES).is_dir() {
            return Ok(None);
        }
        let mut options = OpenOptions::new();
        options.write(true).mode(mode).custom_flags(O_TMPFILE);
        match options.open(folder) {
            Ok(file) => {
                fill(&file, bytes)?;
                Ok(Some(Draft::Unnamed(file)))
            }
            Err(error) => match error.raw_os_error() {
                Some(ENOENT | EISDIR | EINVAL | EOPNOTSUPP) => Ok(None),
                _ => Err(error),
            },
        }
    }

    /// A draft with a temporary name.
    fn named(folder: &Path, bytes: &[u8], mode: u32) -> io::Result<Draft> {
        let name = Temporary::in_folder(folder);
        let mut options = OpenOptions::new();
        options.write(true).mode(mode).create_new(true);
        fill(&options.open(name.path())?, bytes)?;
        Ok(Draft::Named(name))
    }

    /// Gives the draft the name `path`, which nothing may have.
    fn link(&self, path: &Path) -> io::Result<()> {
        match self {
            Draft::Unnamed(file) => {
                let own = format!("{OWN_FILES}/{}", file.as_raw_fd());
                let (own, path) = (
                    c_text(own.as_bytes())?,
                    c_text(path.as_os_str().as_bytes())?,
                );
                // SAFETY: both are texts with a zero behind them, which are only read.
                let done = unsafe {
                    linkat(
                        AT_FDCWD,
                        own.as_ptr(),
                        AT_FDCWD,
                        path.as_ptr(),
                        AT_SYMLINK_FOLLOW,
                    )
                };
                match done {
                    0 => Ok(()),
                    _ => Err(Error::last_os_error()),
                }
            }
            Draft::Named(name) => match fs::hard_link(name.path(), path) {
                Err(error) if error.kind() != ErrorKind::AlreadyExists => {
                    // A file system without second names for a file.
                    match fs::symlink_metadata(path) {
                        Ok(_) => Err(ErrorKind::AlreadyExists.into()),
                        Err(_) => fs::rename(name.path(), path),
                    }
                }
                done => done,
            },
        }
    }

    /// Gives the draft the name `path` in place of the file that has it.
    fn replace(&self, path: &Path) -> io::Result<()> {
        match self {
            Draft::Unnamed(_) => {
                let name = Temporary::in_folder(folder_of(path));
                self.link(name.path())?;
                fs::rename(name.path(), path)
            }
            Draft::Named(name) => fs::rename(name.path(), path),
        }
    }
}

/// What a command is to leave, written but not yet named.
pub enum Output {
    File {
        path: PathBuf,
        draft: Draft,
        force: bool,
    },
    Folder {
        path: PathBuf,
        drafts: Vec<(String, Draft)>,
        mode: u32,
    },
}

impl Output {
    /// A file for `path`. One that stands there is replaced only with `force`.
    pub fn file(path: &Path, bytes: &[u8], mode: u32, force: bool) -> Result<Output, Stop> {
        let make = || -> io::Result<Output> {
            may_be_file(path, force)?;
            Ok(Output::File {
                path: path.to_path_buf(),
                draft: Draft::make(folder_of(path), bytes, mode)?,
                force,
            })
        };
        make().map_err(|error| Stop::failed(path, error))
    }

    /// A folder for `path` with files of these names and texts. An empty one may stand there.
    pub fn folder(path: &Path, files: &[(String, String)], mode: u32) -> Result<Output, Stop> {
        let make = || -> io::Result<Output> {
            may_be_folder(path)?;
            let draft = |(name, text): &(String, String)| {
                Ok((
                    name.clone(),
                    Draft::make(folder_of(path), text.as_bytes(), mode)?,
                ))
            };
            let drafts: io::Result<Vec<_>> = files.iter().map(draft).collect();
            Ok(Output::Folder {
                path: path.to_path_buf(),
                drafts: drafts?,
                mode,
            })
        };
        make().map_err(|error| Stop::failed(path, error))
    }

    fn path(&self) -> &Path {
        match self {
            Output::File { path, .. } | Output::Folder { path, .. } => path,
        }
    }

    fn place(&self) -> io::Result<()> {
        match self {
            Output::File { path, draft, force } => match draft.link(path) {
                Err(error) if *force && error.kind() == ErrorKind::AlreadyExists => {
                    draft.replace(path)
                }
                done => done,
            },
            Output::Folder { path, drafts, mode } => {
                let folder = Temporary::in_folder(folder_of(path));
                // Who may read a file may look into the folder; its owner may always.
                let mode = 0o700 | mode & 0o444 | (mode & 0o444) >> 2;
                DirBuilder::new().mode(mode).create(folder.path())?;
                let mut names = Vec::new();
                for (name, draft) in drafts {
                    let name = Temporary::named(folder.path().join(name));
                    draft.link(name.path())?;
                    names.push(name);
                }
                fs::rename(folder.path(), path)
            }
        }
    }
}

/// Gives all outputs their names. Where one cannot have it those before it go.
pub fn place_all(outputs: &[Output]) -> Result<(), Stop> {
    for (number, output) in outputs.iter().enumerate() {
        if let Err(error) = output.place() {
            for before in &outputs[..number] {
                drop(fs::remove_file(before.path()));
            }
            return Err(Stop::failed(output.path(), error));
        }
    }
    Ok(())
}

/// Whether a file may come to stand at `path`.
fn may_be_file(path: &Path, force: bool) -> io::Result<()> {
    has_name(path)?;
    let taken = match fs::symlink_metadata(path) {
        Ok(found) if !found.is_file() => "not a plain file",
        Ok(_) if !force => "there is such a file; --force replaces it",
        found => return is_free(found),
    };
    Err(Error::new(ErrorKind::AlreadyExists, taken))
}

/// Whether a folder may come to stand at `path`.
fn may_be_folder(path: &Path) -> io::Result<()> {
    has_name(path)?;
    let taken = match fs::symlink_metadata(path) {
        Ok(found) if !found.is_dir() => "not a folder",
        Ok(_) if fs::read_dir(path)?.next().is_some() => "the folder is not empty",
        found => return is_free(found),
    };
    Err(Error::new(ErrorKind::AlreadyExists, taken))
}

/// Whether a name that was looked for can be given: what may be replaced was found, or nothing. A name that is too long, say, cannot.
fn is_free(found: io::Result<Metadata>) -> io::Result<()> {
    match found {
        Err(error) if error.kind() != ErrorKind::NotFound => Err(error),
        _ => Ok(()),
    }
}

/// Refuses an output that is what is to be kept.
pub fn keep(kept: &Path, target: &Path) -> Result<(), Stop> {
    match !is_standard(target) && same_file(kept, target) {
        true => Err(Stop::failed(
            target,
            "would be written over what is read or written too",
        )),
        false => Ok(()),
    }
}

/// Whether two paths lead to one file, or would if it were made.
fn same_file(one: &Path, other: &Path) -> bool {
    let place = |path: &Path| {
        Some((
            fs::canonicalize(folder_of(path)).ok()?,
            path.file_name()?.to_owned(),
        ))
    };
    let found = |path: &Path| {
        let found = fs::metadata(path).ok()?;
        Some((found.dev(), found.ino()))
    };
    match (found(one), found(other)) {
        (Some(one), Some(other)) => one == other,
        _ => place(one).is_some() && place(one) == place(other),
    }
}

/// The folder that a path's last part stands in.
fn folder_of(path: &Path) -> &Path {
    match path.parent() {
        Some(folder) if folder != Path::new("") => folder,
        _ => Path::new("."),
    }
}

fn has_name(path: &Path) -> io::Result<()> {
    match path.file_name() {
        Some(_) => Ok(()),
        None => Err(Error::new(ErrorKind::InvalidInput, "no name to write to")),
    }
}

fn fill(mut file: &File, bytes: &[u8]) -> io::Result<()> {
    file.write_all(bytes)?;
    file.sync_all()
}

fn c_text(bytes: &[u8]) -> io::Result<CString> {
    CString::new(bytes).map_err(|_| ErrorKind::InvalidInput.into())
}

#[cfg(test)]
mod tests {
    use super::{fs, place_all, Draft, Output, Path, PathBuf};
    use std::io::{BufRead, BufReader, Read, Write};
    use std::os::unix::process::ExitStatusExt;
    use std::process::{Command, Stdio};

    fn fresh(name: &str) -> PathBuf {
        let folder = std::env::temp_dir().join(format!("kelompuris_{name}_{}", std::process::id()));
        drop(fs::remove_dir_all(&folder));
        fs::create_dir(&folder).unwrap();
        folder
    }

    fn names(folder: &Path) -> Vec<String> {
        let name = |entry: fs::DirEntry| entry.file_name().into_string().unwrap();
        let mut names: Vec<String> = fs::read_dir(folder)
            .unwrap()
            .map(|entry| name(entry.unwrap()))
            .collect();
        names.sort();
        names
    }

    /// A file and a folder of two texts whose drafts have temporary names, as on file systems that know no others.
    fn named(folder: &Path, force: bool) -> Vec<Output> {
        let draft = |text: &str| Draft::named(folder, text.as_bytes(), 0o600).unwrap();
        let drafts = vec![
            ("one".to_string(), draft("1")),
            ("two".to_string(), draft("2")),
        ];
        vec![
            Output::File {
                path: folder.join("file"),
                draft: draft("file"),
                force,
            },
            Output::Folder {
                path: folder.join("folder"),
                drafts,
                mode: 0o600,
            },
        ]
    }

    #[test]
    fn temporary_names_become_the_right_ones() {
        let folder = fresh("named");
        let outputs = named(&folder, false);
        assert_eq!(names(&folder).len(), 3);
        place_all(&outputs).unwrap();
        drop(outputs);
        assert_eq!(names(&folder), ["file", "folder"]);
        assert_eq!(names(&folder.join("folder")), ["one", "two"]);
        // What stands there is replaced by force only, and a failure takes all with it.
        let outputs = named(&folder, false);
        assert!(place_all(&outputs).is_err());
        drop(outputs);
        assert_eq!(names(&folder), ["file", "folder"]);
        fs::write(folder.join("file"), "old").unwrap();
        fs::remove_dir_all(folder.join("folder")).unwrap();
        let outputs = named(&folder, true);
        place_all(&outputs).unwrap();
        drop(outputs);
        assert_eq!(names(&folder), ["file", "folder"]);
        assert_eq!(fs::read(folder.join("file")).unwrap(), b"file");
        fs::remove_dir_all(folder).unwrap();
    }

    /// Not a test of its own: the test below starts it as another process, and stops that.
    #[test]
    #[ignore = "waits to be stopped"]
    fn waits_with_temporary_names() {
        let folder = PathBuf::from(std::env::var_os("KELOMPURIS_TEST_FOLDER").expect("a folder"));
        let _outputs = named(&folder, false);
        println!("\nready");
        std::io::stdout().flush().unwrap();
        let _ = std::io::stdin().read(&mut [0]);
        std::process::abort();
    }

    #[test]
    fn signals_remove_what_has_a_temporary_name() {
        for (name, number) in [("HUP", 1), ("INT", 2), ("TERM", 15)] {
            let folder = fresh(&format!("stopped_{name}"));
            let mut child = Command::new(std::env::current_exe().unwrap())
                .args([
                    "--exact",
                    "output::tests::waits_with_temporary_names",
                    "--ignored",
                    "--nocapture",
                ])
                .env("KELOMPURIS_TEST_FOLDER", &folder)
                .stdin(Stdio::piped())
                .stdout(Stdio::piped())
                .spawn()
                .unwrap();
            // Waiting would close it, and the other process end by itself.
            let _held = child.stdin.take();
            let mut lines = BufReader::new(child.stdout.take().unwrap()).lines();
            while lines.next().unwrap().unwrap() != "ready" {}
            assert_eq!(names(&folder).len(), 3);
            let kill = format!("kill -{name} {}", child.id());
            assert!(Command::new("sh")
                .args(["-c", &kill])
                .status()
                .unwrap()
                .success());
            assert_eq!(child.wait().unwrap().signal(), Some(number));
            assert_eq!(names(&folder), [""; 0]);
            fs::remove_dir(folder).unwrap();
        }
    }
}
