//! Holds the proved functions to the independent reference: the same answers,
//! the same words in all ten tables and bytes in the output, and nothing else
//! changed.
//!
//! - here: judging and reading; the tray label.
//! - `cal3d`: skeletons and meshes of cal3d.
//! - `diff`: comparing two files.
//! - `lent`: tables to lend, and what becomes of them.
//! - `mend`: mending.
//! - `output`: writing, clearing and slips of files.
//! - `pieces`: a file in pieces.
//! - `rows`: a table row by row.
//! - `slip`: reading slips.
//! - `run`: runs groups of comparisons and prints what was compared.

mod cal3d;
mod diff;
mod lent;
mod mend;
mod output;
pub mod pieces;
mod rows;
mod run;
mod slip;

pub use cal3d::{Format, Mesh, Skeleton};
pub use lent::row_words;
pub use output::{sheet_of, Call};
pub use run::{run, Group};

use lent::{sizes_around, some_sizes, Lent};
use reference::{Answer, Label, Mode};
use scenes::sheet::ROW_WORDS;
use scenes::Rng;
use std::borrow::Cow;
use std::error::Error;
use std::fmt;

/// The numbers 0 to 16, and one for all others.
pub const NUMBERS: usize = 18;

/// What was compared so far.
#[derive(Default)]
pub struct Compared {
    pub files: usize,
    pub reads: usize,
    /// Words of tables, those around the rows too.
    pub words: usize,
    /// Calls with an output: writer, clearer, slips, comparing, mending.
    pub outputs: usize,
    /// Bytes of outputs, those around them too.
    pub bytes: usize,
    /// Slips that were read.
    pub slips: usize,
    /// Pieces of files that were handed over.
    pub pieces: usize,
    /// How often each number was answered.
    pub numbers: [usize; NUMBERS],
    /// Where a test puts a fault.
    pub planted: Option<Planted>,
}

/// A fault that is put into what the proved functions gave, so that a test sees it told.
#[derive(Clone, Copy, Debug, PartialEq, Eq)]
pub enum Planted {
    /// This number is answered as the next one.
    Number(u32),
    /// The last word or byte that was written is another.
    Written,
    /// The word or byte right before what was lent is another.
    Before,
    /// The word or byte right behind what was lent is another.
    Behind,
}

/// Where the two differ, or both from what is known.
#[derive(Debug)]
pub struct Disagreement {
    pub about: String,
    /// The file, or the bytes of the names.
    pub file: Vec<u8>,
}

/// Most bytes of a file that are printed.
const SHOWN: usize = 4096;

impl fmt::Display for Disagreement {
    fn fmt(&self, f: &mut fmt::Formatter) -> fmt::Result {
        writeln!(f, "{}", self.about)?;
        write!(f, "lent {} bytes, the first {SHOWN}:", self.file.len())?;
        for byte in self.file.iter().take(SHOWN) {
            write!(f, " {byte:02x}")?;
        }
        Ok(())
    }
}

impl Error for Disagreement {}

impl Compared {
    /// Judges a file in both modes and reads it with tables of several sizes,
    /// leniently with one where both modes answer the same. The answers to it
    /// without tables, the strict one first.
    pub fn file(&mut self, file: &[u8], rng: &mut Rng) -> Result<[Answer; 2], Disagreement> {
        self.files += 1;
        let strict = self.judge(Mode::Strict, file)?;
        let lenient = self.judge(Mode::Lenient, file)?;
        for sizes in sizes_to_lend(&strict, rng) {
            self.read(Mode::Strict, file, sizes)?;
        }
        let mut sizes = sizes_to_lend(&lenient, rng);
        if lenient == strict {
            sizes.truncate(1);
        }
        for sizes in sizes {
            self.read(Mode::Lenient, file, sizes)?;
        }
        Ok([strict, lenient])
    }

    /// Compares, and holds both in both modes to an answer that is known.
    pub fn known(
        &mut self,
        about: &str,
        file: &[u8],
        answer: (u32, u32),
        rng: &mut Rng,
    ) -> Result<(), Disagreement> {
        self.known_in(about, file, [answer; 2], rng)
    }

    /// The same with an answer for each mode, the strict one first.
    pub fn known_in(
        &mut self,
        about: &str,
        file: &[u8],
        known: [(u32, u32); 2],
        rng: &mut Rng,
    ) -> Result<(), Disagreement> {
        let answers = self.file(file, rng)?;
        if answers.map(|answer| (answer.number, answer.place)) == known {
            return Ok(());
        }
        let about = format!("{about}: both answer {answers:?}, not {known:?}");
        disagree(about, file)
    }

    /// Judges a file; the answer of both.
    pub fn judge(&mut self, mode: Mode, file: &[u8]) -> Result<Answer, Disagreement> {
        let answer = own(kelompuris::judge(proved(mode), file));
        let about = format!("judge, {mode:?}");
        let expected = reference::judge(mode, file);
        self.same(&about, file, answer.number, answer, expected)
    }

    /// The label of a file, that of both.
    pub fn label(&mut self, file: &[u8]) -> Result<Label, Disagreement> {
        self.files += 1;
        let label = kelompuris::label(file);
        let label = Label {
            number: label.number,
            place: label.place,
            name_place: label.name_place,
            name_length: label.name_length,
            vertices: label.vertices,
        };
        self.same("label", file, label.number, label, reference::label(file))
    }

    /// Reads with tables of these sizes.
    pub fn read(
        &mut self,
        mode: Mode,
        file: &[u8],
        sizes: [usize; 10],
    ) -> Result<(), Disagreement> {
        let (mut lent, mut plain) = (Lent::new(sizes), Lent::new(sizes));
        let answer = own(kelompuris::read(proved(mode), file, &mut lent.tables()));
        let expected = reference::read(mode, file, &mut plain.tables());
        let about = format!("read, {mode:?}, with {sizes:?} words");
        self.same(&about, file, answer.number, answer, expected)?;
        let rows = row_words(&answer.counts, &ROW_WORDS);
        self.lent(&about, file, (&lent, &plain), rows)
    }

    /// Holds lent tables to those of the reference, with so many words of rows.
    fn lent<const TABLES: usize>(
        &mut self,
        about: &str,
        file: &[u8],
        (lent, plain): (&Lent<TABLES>, &Lent<TABLES>),
        rows: [usize; TABLES],
    ) -> Result<(), Disagreement> {
        self.reads += 1;
        self.words += lent.len();
        let mut lent = Cow::Borrowed(lent);
        if let Some(planted) = self.planted {
            lent.to_mut().plant(planted, rows);
        }
        match lent.wrong(plain, rows) {
            None => Ok(()),
            Some(wrong) => disagree(format!("{about}: {wrong}"), file),
        }
    }

    /// What is wrong with an output, of which so many bytes were written, beside that of the
    /// reference.
    fn wrong(&self, proved: &output::Lent, plain: &output::Lent, size: usize) -> Option<String> {
        let mut proved = Cow::Borrowed(proved);
        if let Some(planted) = self.planted {
            proved.to_mut().plant(planted, size);
        }
        proved.wrong(plain, size)
    }

    fn count(&mut self, number: u32) {
        self.numbers[(number as usize).min(NUMBERS - 1)] += 1;
    }

    /// Holds an answer with this number to that of the reference.
    fn same<T: PartialEq + fmt::Debug + Numbered>(
        &mut self,
        about: &str,
        file: &[u8],
        number: u32,
        mut answer: T,
        expected: T,
    ) -> Result<T, Disagreement> {
        self.count(number);
        if self.planted == Some(Planted::Number(number)) {
            *answer.number() += 1;
        }
        if answer == expected {
            return Ok(answer);
        }
        let about = format!("{about}: proved {answer:?}, reference {expected:?}");
        disagree(about, file)
    }
}

/// An answer that begins with a number.
trait Numbered {
    fn number(&mut self) -> &mut u32;
}

macro_rules! numbered {
    ($($answer:ty),*) => {
        $(impl Numbered for $answer {
            fn number(&mut self) -> &mut u32 {
                &mut self.number
            }
        })*
    };
}

numbered!(
    Answer,
    Label,
    reference::Slip,
    reference::Compared,
    reference::Mended
);

impl<const HEAD: usize, const TABLES: usize> Numbered for kelompuris::cal3d::Answer<HEAD, TABLES> {
    fn number(&mut self) -> &mut u32 {
        &mut self.number
    }
}

/// A disagreement about this file, or these bytes of names.
pub fn disagree<T>(about: impl Into<String>, file: &[u8]) -> Result<T, Disagreement> {
    let (about, file) = (about.into(), file.to_vec());
    Err(Disagreement { about, file })
}

/// A mode for the proved functions.
fn proved(mode: Mode) -> kelompuris::Mode {
    match mode {
        Mode::Strict => kelompuris::Mode::Strict,
        Mode::Lenient => kelompuris::Mode::Lenient,
    }
}

/// The proved answer as one of the reference.
pub fn own(answer: kelompuris::Answer) -> Answer {
    Answer {
        number: answer.number,
        place: answer.place,
        version: answer.version,
        n_texs: answer.n_texs,
        counts: answer.counts,
    }
}

/// Sizes of the tables to lend for a file with this answer.
fn sizes_to_lend(answer: &Answer, rng: &mut Rng) -> Vec<[usize; 10]> {
    match answer.number {
        0 => sizes_around(row_words(&answer.counts, &ROW_WORDS), rng),
        _ => vec![some_sizes(rng)],
    }
}
