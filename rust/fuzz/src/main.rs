//! The functions that libFuzzer calls; it has the `main`, and its options.
//! Where KELOMPURIS_BLOCKS names a list of blocks of the proved code, inputs grow by these
//! too, and those that none reached are listed beside it.
//! - `fuzz --seeds FOLDER FILE..` writes inputs to begin with into a folder, and ends.
//! - `fuzz --keep FILE FOLDER..` keeps the inputs of folders in one file, and two that tell
//!   what no block does.
//! - `fuzz --kept FILE FOLDER` writes the inputs that such a file keeps into a folder.
//! - `fuzz --edges FOLDER..` prints which blocks of the reference the inputs there reach.
//! - `fuzz --flips LIST FOLDER..` turns each of these jumps of the proved code around and
//!   prints those that no input there tells.
//! - `fuzz --tell OUT LIST FOLDER..` does the same and puts the first input that tells each of
//!   the others into the folder OUT.

#![no_main]

mod blocks;
mod bones;
mod edges;
mod flips;
mod seeds;
mod tree;

use fuzz::{kept, Input, Runner};
use scenes::Rng;
use std::collections::BTreeSet;
use std::ffi::OsString;
use std::path::PathBuf;
use std::process::{abort, exit};
use std::slice::{from_raw_parts, from_raw_parts_mut};
use std::sync::Mutex;
use std::{env, fs, io};

/// The name of what has the name of the list of blocks.
const BLOCKS: &str = "KELOMPURIS_BLOCKS";

/// What runs inputs, from the first one on.
static RUNNER: Mutex<Option<Runner>> = Mutex::new(None);

extern "C" {
    fn LLVMFuzzerMutate(data: *mut u8, size: usize, most: usize) -> usize;
    fn atexit(call: extern "C" fn()) -> i32;
}

/// Once, before all inputs.
#[no_mangle]
extern "C" fn LLVMFuzzerInitialize(_count: *mut i32, _words: *mut *mut *mut u8) -> i32 {
    let mut words = env::args_os().skip(1);
    let command = words.next().unwrap_or_default();
    let done = match command.to_str() {
        Some("--seeds") => write_seeds(words.map(PathBuf::from)),
        Some("--keep") => keep(words.map(PathBuf::from)),
        Some("--kept") => write_kept(words.map(PathBuf::from)),
        Some("--edges") => print_edges(words.map(PathBuf::from)),
        Some("--flips") => print_flips(words).map(drop),
        Some("--tell") => write_telling(words),
        _ => match begin() {
            Ok(()) => return 0,
            refused => refused,
        },
    };
    match done {
        Ok(()) => exit(0),
        Err(error) => {
            eprintln!("{error}");
            exit(1)
        }
    }
}

fn begin() -> io::Result<()> {
    // The reference makes its lists of right slips at its first.
    reference::read_slip(&[0; 12]);
    if let Ok(list) = env::var(BLOCKS) {
        blocks::trap(&list)?;
    }
    // SAFETY: the function may be called at any time.
    match unsafe { atexit(summary) } {
        0 => Ok(()),
        _ => Err(io::Error::last_os_error()),
    }
}

fn write_seeds(mut names: impl Iterator<Item = PathBuf>) -> io::Result<()> {
    let folder = names.next().ok_or(io::ErrorKind::NotFound)?;
    let files = names.map(fs::read).collect::<io::Result<_>>()?;
    seeds::write(&folder, files)
}

fn keep(mut names: impl Iterator<Item = PathBuf>) -> io::Result<()> {
    let file = names.next().ok_or(io::ErrorKind::NotFound)?;
    let mut inputs = inputs(names)?;
    for input in [seeds::label_of_anim(), seeds::lists_out_of_order()] {
        if !inputs.contains(&input) {
            inputs.push(input);
        }
    }
    fs::write(file, kept::joined(&inputs))
}

fn write_kept(mut names: impl Iterator<Item = PathBuf>) -> io::Result<()> {
    let (Some(file), Some(folder)) = (names.next(), names.next()) else {
        return Err(io::ErrorKind::NotFound.into());
    };
    fs::create_dir_all(&folder)?;
    for (number, input) in kept::apart(&fs::read(file)?)?.iter().enumerate() {
        fs::write(folder.join(format!("kept_{number}")), input)?;
    }
    Ok(())
}

fn print_edges(folders: impl Iterator<Item = PathBuf>) -> io::Result<()> {
    for line in edges::lines(&inputs(folders)?, run) {
        println!("{line}");
    }
    Ok(())
}

/// The inputs that tell.
fn print_flips(mut words: impl Iterator<Item = OsString>) -> io::Result<Vec<Vec<u8>>> {
    let list = words.next().unwrap_or_default();
    let inputs = inputs(words.map(PathBuf::from))?;
    inputs.iter().for_each(|input| run(input));
    let told = flips::flips(&list.to_string_lossy(), &inputs, run)?;
    for at in &told.untold {
        println!("{at:x}");
    }
    let (differ, touched, endless) = (told.differ, told.touched, told.endless);
    let ways = format!("{differ} differ, {touched} touch other memory, {endless} do not end");
    eprintln!(
        "Jumps turned around: {ways}, {} others; {} are not told",
        told.other,
        told.untold.len()
    );
    let by: BTreeSet<usize> = told.by.into_iter().collect();
    Ok(by
        .into_iter()
        .map(|number| inputs[number].clone())
        .collect())
}

fn write_telling(mut words: impl Iterator<Item = OsString>) -> io::Result<()> {
    let folder = words.next().map(PathBuf::from);
    let folder = folder.ok_or(io::ErrorKind::NotFound)?;
    fs::create_dir_all(&folder)?;
    for (number, input) in print_flips(words)?.iter().enumerate() {
        fs::write(folder.join(format!("tells_{number}")), input)?;
    }
    Ok(())
}

/// The inputs in these folders, each once, the shortest first.
fn inputs(folders: impl Iterator<Item = PathBuf>) -> io::Result<Vec<Vec<u8>>> {
    let mut inputs = Vec::new();
    for folder in folders {
        for entry in fs::read_dir(folder)? {
            inputs.push(fs::read(entry?.path())?);
        }
    }
    inputs.sort_by_key(|input| (input.len(), input.clone()));
    inputs.dedup();
    Ok(inputs)
}

/// Prints what was compared, and how often each number was answered.
extern "C" fn summary() {
    if let Some(Runner { compared, .. }) = &*RUNNER.lock().unwrap() {
        eprintln!("Compared: {}", compared.summary());
        eprintln!("Answers 0 to 16, and others: {:?}", compared.numbers);
    }
    if let Ok(list) = env::var(BLOCKS) {
        let (all, missed) = blocks::missed();
        eprintln!("Blocks of the proved code: {} of {all}", all - missed.len());
        let lines: String = missed.iter().map(|at| format!("{at:x}\n")).collect();
        if let Err(error) = fs::write(list + ".missed", lines) {
            eprintln!("{error}");
        }
    }
}

#[no_mangle]
extern "C" fn LLVMFuzzerTestOneInput(data: *const u8, size: usize) -> i32 {
    // SAFETY: the fuzzer lends so many bytes.
    let bytes = unsafe { lent(data, size) };
    run(bytes);
    0
}

/// Compares on an input; ends the program where the two differ.
fn run(bytes: &[u8]) {
    let mut runner = RUNNER.lock().unwrap();
    if let Err(disagreement) = runner.get_or_insert_default().run(bytes) {
        let input = Input::of(bytes);
        eprintln!("{:?}, {:?}", input.function(), input.mode());
        eprintln!("{disagreement}");
        abort();
    }
}

#[no_mangle]
extern "C" fn LLVMFuzzerCustomMutator(data: *mut u8, size: usize, most: usize, seed: u32) -> usize {
    // SAFETY: the fuzzer lends so many bytes.
    let input = unsafe { lent(data, size) };
    let mut rng = Rng::new(u64::from(seed));
    let changed = tree::changed(input, most, &mut rng, &mut plain_change);
    // SAFETY: the fuzzer lends `most` bytes to be written.
    unsafe { put(&changed, data, most) }
}

#[no_mangle]
extern "C" fn LLVMFuzzerCustomCrossOver(
    one: *const u8,
    one_size: usize,
    other: *const u8,
    other_size: usize,
    out: *mut u8,
    most: usize,
    seed: u32,
) -> usize {
    // SAFETY: the fuzzer lends so many bytes of each.
    let (one, other) = unsafe { (lent(one, one_size), lent(other, other_size)) };
    let crossed = tree::crossed(one, other, &mut Rng::new(u64::from(seed)));
    // SAFETY: the fuzzer lends `most` bytes to be written.
    unsafe { put(crossed.as_deref().unwrap_or(one), out, most) }
}

/// A change of bytes, which may become so many, by the fuzzer.
fn plain_change(mut bytes: Vec<u8>, most: usize) -> Vec<u8> {
    let size = bytes.len().min(most);
    bytes.resize(most.max(1), 0);
    // SAFETY: there are at least `most` bytes.
    let size = unsafe { LLVMFuzzerMutate(bytes.as_mut_ptr(), size, bytes.len()) };
    bytes.truncate(size);
    bytes
}

unsafe fn lent<'a>(data: *const u8, size: usize) -> &'a [u8] {
    match size {
        0 => &[],
        _ => from_raw_parts(data, size),
    }
}

/// Puts as many bytes as there is room for; how many.
unsafe fn put(bytes: &[u8], out: *mut u8, most: usize) -> usize {
    let size = bytes.len().min(most);
    if size > 0 {
        from_raw_parts_mut(out, size).copy_from_slice(&bytes[..size]);
    }
    size
}
