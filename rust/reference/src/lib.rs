//! A plain reader, writer, clearer and lister of Blitz3D B3D files, and of
//! slips, written from the rules alone, for comparison with other code. It uses the heap
//! freely and fills lent slices only after all checks.
//!
//! Reading: `parse` makes a `scene` (refusals 1 to 9), `tables` counts its rows
//! (10) and fills them. Writing: `soundness` judges lent tables (12), `encode`
//! makes the bytes. Reader and writer take a mode: whether colours are judged.
//! `label` walks headers by itself. `compare` lists what differs between the words of
//! two files. `mend` walks a file by itself, with the reader's rules for chunks in
//! which there is nothing to mend.
//! `cal3d` reads skeletons and meshes of another format.

pub mod cal3d;
mod chunks;
mod compare;
mod encode;
mod groups;
mod label;
mod layout;
mod lent;
pub mod limits;
mod lister;
mod mend;
mod numbers;
mod parse;
pub mod refusal;
mod scene;
mod size;
mod slip;
mod soundness;
mod tables;

use compare::Side;
use lent::Lent;
use limits::{BRUSHES, NODES, ROW_WORDS, TEXTURES};
use refusal::{Refusal, SHORT, UNSOUND};

pub use label::{label, Label};
pub use lister::list;

/// Whether a red, green, blue or alpha outside 0 to 1 is refused.
#[derive(Clone, Copy, Debug, PartialEq, Eq)]
pub enum Mode {
    Strict,
    Lenient,
}

/// The reader's answer. All but number and place are 0 on refusal.
#[derive(Clone, Copy, Debug, Default, PartialEq, Eq)]
pub struct Answer {
    pub number: u32,
    pub place: u32,
    pub version: u32,
    pub n_texs: u32,
    pub counts: [u32; 10],
}

/// What a slip is answered. The numbers are 0 on refusal.
#[derive(Clone, Copy, Debug, Default, PartialEq, Eq)]
pub struct Slip {
    pub number: u32,
    pub place: u32,
    pub numbers: [u32; 12],
}

/// The answer of writers and clearer. The size is 0 on refusal.
#[derive(Clone, Copy, Debug, Default, PartialEq, Eq)]
pub struct Written {
    pub number: u32,
    pub place: u32,
    pub size: u32,
}

/// What a comparison is answered: a refusal of the first or the second file says
/// which. The size is 0 on refusal.
#[derive(Clone, Copy, Debug, Default, PartialEq, Eq)]
pub struct Compared {
    pub number: u32,
    pub place: u32,
    pub which: u32,
    pub size: u32,
}

/// What mending is answered. The sizes, of the mended file and of the report, are 0
/// on refusal.
#[derive(Clone, Copy, Debug, Default, PartialEq, Eq)]
pub struct Mended {
    pub number: u32,
    pub place: u32,
    pub size: u32,
    pub report_size: u32,
}

/// Judges a file without tables: refusals 1 to 10.
pub fn judge(mode: Mode, file: &[u8]) -> Answer {
    match accept(mode, file) {
        Ok(accepted) => accepted.answer(),
        Err(refusal) => refused_file(refusal),
    }
}

/// Reads a file to lent tables: refusals 1 to 11. A refused call changes no
/// word, and words past the last row stay as found.
pub fn read(mode: Mode, file: &[u8], tables: &mut [&mut [u32]; 10]) -> Answer {
    let accepted = match accept(mode, file) {
        Ok(accepted) => accepted,
        Err(refusal) => return refused_file(refusal),
    };
    for (table, lent) in tables.iter().enumerate() {
        if lent.len() < accepted.tables[table].len() {
            return refused_file(Refusal {
                number: SHORT,
                place: table + 1,
            });
        }
    }
    for (lent, words) in tables.iter_mut().zip(&accepted.tables) {
        lent[..words.len()].copy_from_slice(words);
    }
    accepted.answer()
}

/// Writes tables as the shortest file: refusals 12, then 11. A refused call
/// changes no byte, and bytes past the size stay as found.
pub fn write(
    mode: Mode,
    tables: &[&[u32]; 10],
    counts: &[u32; 10],
    version: u32,
    n_texs: u32,
    names: &[u8],
    out: &mut [u8],
) -> Written {
    let Some(lent) = Lent::new(*tables, counts, version, n_texs, names) else {
        return refused_output(UNSOUND, 0);
    };
    let Some(size) = soundness::sound_size(mode, &lent) else {
        return refused_output(UNSOUND, 0);
    };
    if out.len() < size {
        return refused_output(SHORT, size);
    }
    put(&encode::encode(&lent), out)
}

/// Copies a file without names: refusals 1 to 10 of the lenient mode, then 11.
pub fn clear(file: &[u8], out: &mut [u8]) -> Written {
    let accepted = match accept(Mode::Lenient, file) {
        Ok(accepted) => accepted,
        Err(refusal) => return refused_output(refusal.number, refusal.place),
    };
    let copy = accepted.cleared_copy();
    if out.len() < copy.len() {
        return refused_output(SHORT, copy.len());
    }
    put(&copy, out)
}

/// Writes the slip of twelve numbers: refusals 13, then 11.
pub fn write_slip(numbers: &[u32; 12], out: &mut [u8]) -> Written {
    match slip::write(numbers) {
        Ok(slip) if out.len() < slip.len() => refused_output(SHORT, slip.len()),
        Ok(slip) => put(&slip, out),
        Err(refusal) => refused_output(refusal.number, refusal.place),
    }
}

/// Reads a slip: refusal 13.
pub fn read_slip(slip: &[u8]) -> Slip {
    match slip::read(slip) {
        Ok(numbers) => Slip {
            numbers,
            ..Slip::default()
        },
        Err(refusal) => Slip {
            number: refusal.number,
            place: refusal.place as u32,
            ..Slip::default()
        },
    }
}

/// Writes the slip of a file, judged leniently: refusals 1 to 10, then 11.
pub fn slip_of(file: &[u8], out: &mut [u8]) -> Written {
    let answer = judge(Mode::Lenient, file);
    if answer.number != 0 {
        return refused_output(answer.number, answer.place as usize);
    }
    let mut numbers = [answer.version, answer.n_texs, 0, 0, 0, 0, 0, 0, 0, 0, 0, 0];
    numbers[2..].copy_from_slice(&answer.counts);
    write_slip(&numbers, out)
}

/// Lists what differs between two files, judged leniently: the first one's refusals
/// 1 to 10, then the second's, then 11. A refused call changes no byte, and bytes
/// past the size stay as found.
pub fn compare(first: &[u8], second: &[u8], out: &mut [u8]) -> Compared {
    let refused = |which, number, place: usize| Compared {
        number,
        place: place as u32,
        which,
        size: 0,
    };
    let mut sides = Vec::new();
    for (which, file) in [(1, first), (2, second)] {
        match accept(Mode::Lenient, file) {
            Ok(words) => sides.push(Side { words, file }),
            Err(refusal) => return refused(which, refusal.number, refusal.place),
        }
    }
    let list = compare::list(&sides[0], &sides[1]);
    if out.len() < list.len() {
        return refused(0, SHORT, list.len());
    }
    out[..list.len()].copy_from_slice(&list);
    Compared {
        size: list.len() as u32,
        ..Compared::default()
    }
}

/// Mends a file and reports what it mended: its first fault of another kind than the
/// four, then 11 for the mended file, then 11 for the report. A refused call changes
/// no byte, and bytes past the sizes stay as found.
pub fn mend(file: &[u8], out: &mut [u8], report: &mut [u8]) -> Mended {
    let refused = |number, place: usize| Mended {
        number,
        place: place as u32,
        ..Mended::default()
    };
    let mended = match mend::mend(file) {
        Ok(mended) => mended,
        Err(refusal) => return refused(refusal.number, refusal.place),
    };
    if out.len() < mended.file.len() {
        return refused(SHORT, mended.file.len());
    }
    if report.len() < mended.report.len() {
        return refused(SHORT, mended.report.len());
    }
    Mended {
        number: 0,
        place: 0,
        size: put(&mended.file, out).size,
        report_size: put(&mended.report, report).size,
    }
}

/// An accepted file's words: all that the reader gives.
struct Accepted {
    version: u32,
    n_texs: u32,
    counts: [u32; 10],
    tables: [Vec<u32>; 10],
}

/// The words of a file without faults 1 to 10, else the first fault.
fn accept(mode: Mode, file: &[u8]) -> Result<Accepted, Refusal> {
    let scene = parse::parse(mode, file)?;
    let counts = tables::limited_counts(&scene)?;
    // n_texs is 0 if there is no brush.
    let n_texs = match counts[BRUSHES] {
        0 => 0,
        _ => scene.n_texs,
    };
    Ok(Accepted {
        version: scene.version,
        n_texs,
        counts: counts.map(|count| count as u32),
        tables: tables::fill(file, &scene),
    })
}

impl Accepted {
    fn answer(&self) -> Answer {
        Answer {
            number: 0,
            place: 0,
            version: self.version,
            n_texs: self.n_texs,
            counts: self.counts,
        }
    }

    /// What the writer makes of these words with each name empty.
    fn cleared_copy(mut self) -> Vec<u8> {
        for table in [TEXTURES, BRUSHES, NODES] {
            for row in self.tables[table].chunks_mut(ROW_WORDS[table]) {
                row[0] = 0;
                row[1] = 0;
            }
        }
        let tables = std::array::from_fn(|table| self.tables[table].as_slice());
        let lent = Lent::new(tables, &self.counts, self.version, self.n_texs, &[])
            .expect("an accepted file has no more rows than the limit");
        encode::encode(&lent)
    }
}

fn refused_file(refusal: Refusal) -> Answer {
    Answer {
        number: refusal.number,
        place: refusal.place as u32,
        ..Answer::default()
    }
}

fn refused_output(number: u32, place: usize) -> Written {
    Written {
        number,
        place: place as u32,
        size: 0,
    }
}

/// Puts the bytes at the start of the output; the rest stays as found.
fn put(bytes: &[u8], out: &mut [u8]) -> Written {
    out[..bytes.len()].copy_from_slice(bytes);
    Written {
        number: 0,
        place: 0,
        size: bytes.len() as u32,
    }
}
