//! The commands, those on scenes in a mode but for `clear`, `slip`, `label` and `stream`. Those that print add lines to the run; the others say nothing unless
//! they stop.

use crate::answer::{about, in_words, Stop};
use crate::json;
use crate::progress::Progress;
use crate::run::{is_standard, Run, LARGEST};
use crate::text;
use kelompuris::columns::{Table, HEAD, TABLES};
use kelompuris::pieces::Pieces;
use kelompuris::{Answer, Mode, Node, Row, Scene, Tables};
use std::fs;
use std::io::{self, ErrorKind, Read};
use std::path::{Path, PathBuf};

/// A line for each file: its answer in words, or in JSON. Of a folder each scene in
/// it and below it is taken.
pub fn check(mode: Mode, paths: &[&Path], json: bool, run: &mut Run) -> Result<(), Stop> {
    let mut files = Vec::new();
    for path in paths {
        let before = files.len();
        match !is_standard(path) && path.is_dir() {
            true => scenes_below(path, &mut files),
            false => files.push(path.to_path_buf()),
        }
        if files.len() == before {
            return Err(Stop::failed(path, "no .b3d in it"));
        }
    }
    let files: Vec<&Path> = files.iter().map(PathBuf::as_path).collect();
    check_each(&files, run, |path, file| {
        let answer = file.map(|file| kelompuris::check(mode, file));
        let is_accepted = matches!(answer, Ok(Ok(_)));
        let line = match (answer, json) {
            (Ok(answer), true) => json::answer(path, &answer),
            (Ok(answer), false) => about(path, in_words(&answer)),
            (Err(why), true) => json::failure(path, why),
            (Err(why), false) => why.to_string(),
        };
        (is_accepted, line)
    })
}

/// The files in a folder and below it whose names end in .b3d, in order of their
/// names. A link to a folder is not followed, and pipes and devices, which may never end,
/// are left out. A folder that cannot be read stands there itself, and is not read as a file
/// either.
fn scenes_below(folder: &Path, files: &mut Vec<PathBuf>) {
    let entries = fs::read_dir(folder).and_then(Iterator::collect::<io::Result<Vec<_>>>);
    let Ok(mut entries) = entries else {
        files.push(folder.to_path_buf());
        return;
    };
    entries.sort_by_key(|entry| entry.file_name());
    for entry in entries {
        let path = entry.path();
        let ending = path.extension().map(|ending| ending.to_ascii_lowercase());
        if entry.file_type().is_ok_and(|kind| kind.is_dir()) {
            scenes_below(&path, files);
        } else if ending.is_some_and(|ending| ending == "b3d") && !may_never_end(&path) {
            files.push(path);
        }
    }
}

/// Whether something stands at `path` that is no file and no folder.
fn may_never_end(path: &Path) -> bool {
    fs::metadata(path).is_ok_and(|found| !found.is_file() && !found.is_dir())
}

/// A line for each file, of any kind: `line` is given its bytes, or why it cannot be read, and says whether it is accepted, and in a line what it is.
pub fn check_each(
    paths: &[&Path],
    run: &mut Run,
    line: impl Fn(&Path, Result<&[u8], &str>) -> (bool, String),
) -> Result<(), Stop> {
    let (mut refused, mut failed) = (0, 0);
    let mut progress = Progress::of(paths.len());
    for path in paths {
        let (_, told) = match run.load(path) {
            Ok(file) => {
                let told = line(path, Ok(&file));
                refused += usize::from(!told.0);
                told
            }
            Err(Stop::Failed(why) | Stop::Refused(why) | Stop::Found(why)) => {
                failed += 1;
                line(path, Err(&why))
            }
        };
        run.line(told);
        progress.step();
    }
    drop(progress);
    verdict(paths.len(), refused, failed)
}

/// How a check of `of` files ends, of which `refused` are refused and `failed` cannot be read.
fn verdict(of: usize, refused: usize, failed: usize) -> Result<(), Stop> {
    match (refused, failed) {
        (0, 0) => Ok(()),
        (_, 0) => Err(Stop::Refused(format!("{refused} of {of} refused"))),
        _ => Err(Stop::Failed(format!("{failed} of {of} cannot be read"))),
    }
}

/// Number and place; if accepted version and n_texs, ten counts, node names.
pub fn list(mode: Mode, path: &Path, run: &mut Run) -> Result<(), Stop> {
    let file = run.load(path)?;
    let held = kelompuris::judge(mode, &file);
    add_answer(&held, run);
    held.result()
        .map_err(|refusal| Stop::refused(path, refusal))?;
    for row in kelompuris::rows(&file, 3) {
        run.line(shown(Node::over(&row[..Node::WORDS], &file).name()));
    }
    Ok(())
}

/// Number and place; if accepted version and n_texs, ten counts.
fn add_answer(answer: &Answer, run: &mut Run) {
    run.numbers(&[answer.number, answer.place]);
    if answer.number == 0 {
        run.numbers(&[answer.version, answer.n_texs]);
        run.numbers(&answer.counts);
    }
}

/// How many bytes `stream` takes at a time, and the most that it can be told to.
pub const PIECE: usize = 200;
pub const LARGEST_PIECE: usize = 65_536;

/// The same without names for a file that comes by an input, `most` bytes at a
/// time. It is never held; behind the largest file nothing is read.
pub fn stream(most: usize, input: &mut impl Read, run: &mut Run) -> Result<(), Stop> {
    let path = Path::new("standard input");
    let mut input = input.take(LARGEST + 1);
    let mut bytes = vec![0; most];
    let mut pieces = Pieces::default();
    loop {
        match input.read(&mut bytes) {
            Ok(0) => break,
            Ok(count) => pieces.piece(&bytes[..count]),
            Err(error) if error.kind() == ErrorKind::Interrupted => {}
            Err(error) => return Err(Stop::failed(path, error)),
        }
    }
    let answer = pieces.close();
    add_answer(&answer, run);
    let held = answer.result();
    held.map_err(|refusal| Stop::refused(path, refusal))?;
    Ok(())
}

/// Number and place; if found the root's name and the vertices of its mesh. No
/// size limit holds here; what stands behind BB3D is not read.
pub fn label(path: &Path, run: &mut Run) -> Result<(), Stop> {
    let file = first_chunk(run.open(path)?).map_err(|error| Stop::failed(path, error))?;
    let label = kelompuris::label_of(&file).map_err(|refusal| {
        run.numbers(&[refusal.number(), refusal.place()]);
        Stop::refused(path, refusal)
    })?;
    run.numbers(&[0, 0]);
    run.line(shown(label.name));
    run.line(label.vertices.to_string());
    Ok(())
}

/// The answer in words, and of a refusal where it stands.
pub fn explain(mode: Mode, path: &Path, run: &mut Run) -> Result<(), Stop> {
    let file = run.load(path)?;
    let answer = kelompuris::check(mode, &file);
    run.line(in_words(&answer));
    let Err(refusal) = answer else {
        return Ok(());
    };
    for line in crate::explain::lines(&file, refusal.number(), refusal.place()) {
        run.line(line);
    }
    tell_of_mending(mode, &file, run);
    Err(Stop::refused(path, refusal))
}

/// Tells that a file can be mended. A colour that only the strict mode refuses is nothing to mend.
fn tell_of_mending(mode: Mode, file: &[u8], run: &mut Run) {
    let Ok(mending) = kelompuris::mend_to_vec(file) else {
        return;
    };
    if mending.mends().next().is_some() {
        let opens = match kelompuris::check(mode, mending.file()) {
            Ok(_) => "opens",
            Err(_) => "opens with --lenient",
        };
        run.line(format!(
            "kelompuris mend FILE OUT makes a copy that {opens}"
        ));
    }
}

/// The first chunk of a file as far as it is there; of a file that does not begin
/// with BB3D its first eight bytes, which have no label either.
fn first_chunk(mut file: impl Read) -> io::Result<Vec<u8>> {
    let mut bytes = Vec::new();
    file.by_ref().take(8).read_to_end(&mut bytes)?;
    if let [b'B', b'B', b'3', b'D', length @ ..] = &bytes[..] {
        let length = length.try_into().map_or(0, u32::from_le_bytes);
        file.take(length.into()).read_to_end(&mut bytes)?;
    }
    Ok(bytes)
}

/// The nodes of a file as a tree, its textures and its brushes.
pub fn tree(mode: Mode, path: &Path, run: &mut Run) -> Result<(), Stop> {
    let file = run.load(path)?;
    kelompuris::check(mode, &file).map_err(|refusal| Stop::refused(path, refusal))?;
    crate::tree::print(&file, run);
    Ok(())
}

/// The tables of a file as a folder of texts.
pub fn tables(mode: Mode, path: &Path, folder: &Path, run: &mut Run) -> Result<(), Stop> {
    let file = run.load(path)?;
    let scene = Scene::read(mode, &file).map_err(|refusal| Stop::refused(path, refusal))?;
    let tables = scene.tables();
    let head = text::print_head([tables.version, tables.n_texs]);
    let each = TABLES.iter().zip(&tables.words);
    put_tables(folder, (&HEAD, head), each, &file, run)
}

/// The text of a head of one row and tables as a folder of texts.
pub fn put_tables<'a>(
    folder: &Path,
    head: (&Table, String),
    tables: impl Iterator<Item = (&'a Table, &'a Vec<u32>)>,
    names: &[u8],
    run: &mut Run,
) -> Result<(), Stop> {
    let as_text = |table: &Table, words: &[u32]| text::print(table, words, names);
    let mut files = vec![(head.0.file_name(), head.1)];
    files.extend(tables.map(|(table, words)| (table.file_name(), as_text(table, words))));
    run.put_folder(folder, &files)
}

/// A file from such a folder.
pub fn build(
    mode: Mode,
    folder: &Path,
    target: &Path,
    force: bool,
    run: &mut Run,
) -> Result<(), Stop> {
    let mut names = Vec::new();
    let path = folder.join(HEAD.file_name());
    let head = text::parse_head(&run.load_text(&path)?);
    let ([version, n_texs], floats) = head.map_err(|why| Stop::failed(&path, why))?;
    let mut read = |table: &Table| {
        let path = folder.join(table.file_name());
        let text = run.load_text(&path)?;
        text::parse(table, &text, floats, &mut names).map_err(|why| Stop::failed(&path, why))
    };
    let mut words = <[Vec<u32>; 10]>::default();
    for (words, table) in words.iter_mut().zip(&TABLES) {
        *words = read(table)?;
    }
    let tables = Tables {
        version,
        n_texs,
        words,
    };
    let bytes = tables.write(mode, &names);
    let bytes = bytes.map_err(|refusal| Stop::refused(folder, refusal))?;
    run.put_file(target, &bytes, force)
}

/// The copy of a file without names.
pub fn clear(path: &Path, target: &Path, force: bool, run: &mut Run) -> Result<(), Stop> {
    let copy = kelompuris::clear_to_vec(&run.load(path)?);
    let copy = copy.map_err(|refusal| Stop::refused(path, refusal))?;
    run.put_file(target, &copy, force)
}

/// The slip of a file.
pub fn slip(path: &Path, target: &Path, force: bool, run: &mut Run) -> Result<(), Stop> {
    let slip = kelompuris::slip_to_vec(&run.load(path)?);
    let slip = slip.map_err(|refusal| Stop::refused(path, refusal))?;
    run.put_file(target, &slip, force)
}

/// Number and place of a slip; if accepted version and n_texs, ten counts.
pub fn show_slip(path: &Path, run: &mut Run) -> Result<(), Stop> {
    let slip = kelompuris::read_slip(&run.load(path)?);
    run.numbers(&[slip.number, slip.place]);
    let slip = slip
        .result()
        .map_err(|refusal| Stop::refused(path, refusal))?;
    run.numbers(&slip.numbers[..2]);
    run.numbers(&slip.numbers[2..]);
    Ok(())
}

/// `unnamed` if empty, bytes outside 32 to 126 as `?`.
pub fn shown(name: &[u8]) -> String {
    match name {
        [] => "unnamed".to_string(),
        _ => plain(name),
    }
}

/// Bytes outside 32 to 126 as `?`.
pub fn plain(name: &[u8]) -> String {
    let plain = |&byte: &u8| match byte {
        32..=126 => byte as char,
        _ => '?',
    };
    name.iter().map(plain).collect()
}
