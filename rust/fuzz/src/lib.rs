//! One input as a call of both implementations. An input is a byte for function
//! and mode, a byte that says how many parameters follow, these, and a file.
//!
//! - here: what an input asks for, and the call.
//! - `chunks`: a file as a tree of chunks.
//! - `edits`: parameters as a program of edits over lent tables.
//! - `guarded`: bytes beside memory that must not be touched.
//! - `kept`: inputs that are kept, one behind the other in one file.
//! - `pairs`: the two files of an input for the comparison.
//! - `states`: parameters as changes of a state that a judge of pieces keeps, or of one of a table's rows.
//!
//! The fuzzer itself is `main.rs`, with
//! - `blocks`: which blocks of the proved code inputs reach.
//! - `bones`: a skeleton changed as trees.
//! - `edges`: which blocks of the reference inputs reach.
//! - `flips`: whether inputs tell the proved code from code with one jump turned around.
//! - `seeds`: inputs to begin with.
//! - `tree`: inputs changed as trees of chunks.

pub mod chunks;
pub mod edits;
pub mod guarded;
pub mod kept;
pub mod pairs;
pub mod states;

use compare::pieces::joined;
use compare::{disagree, own, row_words, sheet_of, Call, Compared, Disagreement};
use compare::{Format, Mesh, Skeleton};
use guarded::Guarded;
use reference::Mode;
use scenes::sheet::ROW_WORDS;
use scenes::{Rng, Sheet};
use std::hint::black_box;

/// What is called. Parameters, where a function takes any, are:
#[derive(Clone, Copy, Debug, PartialEq, Eq)]
pub enum Function {
    /// The mode as a number, if there are four bytes of it.
    Judge,
    /// By how much the lent tables are longer or shorter than their rows.
    Read,
    /// By how much the output is too long or short, then edits of the tables.
    Write,
    /// The same of the output.
    Clear,
    SlipOf,
    WriteSlip,
    ReadSlip,
    Label,
    /// How long each piece is.
    Pieces,
    /// Where the state is changed, and how.
    State,
    /// As for reading.
    Skeleton,
    /// How many bones there are, then as for reading.
    Mesh,
    /// By how much the output is too long or short, then changes that make the second file.
    Compare,
    /// By how much the output and the report are too long or short.
    Mend,
    /// A table, then how the states before its rows are changed.
    Rows,
}

/// The function of each low half of a first byte.
pub const FUNCTIONS: [Function; 16] = [
    Function::Judge,
    Function::Read,
    Function::Write,
    Function::Clear,
    Function::SlipOf,
    Function::WriteSlip,
    Function::ReadSlip,
    Function::Label,
    Function::Pieces,
    Function::State,
    Function::Skeleton,
    Function::Mesh,
    Function::Compare,
    Function::Rows,
    Function::Mend,
    Function::Pieces,
];

/// The bit of a first byte that asks for the lenient mode.
pub const LENIENT: u8 = 0x10;

/// The bit that puts the file right behind memory that must not be touched, not before it.
pub const AT_START: u8 = 0x20;

extern "C" {
    fn kelompuris_b3d_judge(mode: u32, file: *const u8, size: usize) -> kelompuris::Answer;
}

/// An input in its parts.
#[derive(Clone, Copy, Debug)]
pub struct Input<'a> {
    pub first: u8,
    pub parameters: &'a [u8],
    pub file: &'a [u8],
}

impl<'a> Input<'a> {
    /// The parts of any bytes.
    pub fn of(bytes: &'a [u8]) -> Input<'a> {
        let (first, rest) = bytes.split_first().unwrap_or((&0, &[]));
        let (count, rest) = rest.split_first().unwrap_or((&0, &[]));
        let (parameters, file) = rest.split_at(rest.len().min(usize::from(*count)));
        Input {
            first: *first,
            parameters,
            file,
        }
    }

    /// The bytes of these parts; of the parameters at most 255.
    pub fn bytes(&self) -> Vec<u8> {
        let count = self.parameters.len().min(255);
        let mut bytes = vec![self.first, count as u8];
        bytes.extend(&self.parameters[..count]);
        bytes.extend(self.file);
        bytes
    }

    pub fn function(&self) -> Function {
        FUNCTIONS[usize::from(self.first & 0x0F)]
    }

    pub fn mode(&self) -> Mode {
        match self.first & LENIENT {
            0 => Mode::Strict,
            _ => Mode::Lenient,
        }
    }

    /// The same with another file.
    pub fn with_file<'b>(&'b self, file: &'b [u8]) -> Input<'b> {
        Input { file, ..*self }
    }

    /// The file, and for the comparison a second one; else that is empty.
    fn files(&self) -> (&'a [u8], Vec<u8>) {
        match self.function() {
            Function::Compare => {
                let (first, second) = pairs::split(self.file).unwrap_or((self.file, self.file));
                let program = self.parameters.get(1..).unwrap_or(&[]);
                (first, pairs::changed(second, program))
            }
            _ => (self.file, Vec::new()),
        }
    }

    /// Calls both and holds one to the other; `second` is for the comparison of two files.
    fn compare(&self, compared: &mut Compared, second: &[u8]) -> Result<(), Disagreement> {
        let (mode, file, parameters) = (self.mode(), self.file, self.parameters);
        match self.function() {
            Function::Judge => match parameters.first_chunk() {
                Some(number) => by_number(compared, u32::from_le_bytes(*number), file),
                None => compared.judge(mode, file).map(drop),
            },
            Function::Read => {
                let answer = compared.judge(mode, file)?;
                let rows = row_words(&answer.counts, &ROW_WORDS);
                compared.read(mode, file, lengths(rows, parameters))
            }
            Function::Write => {
                let (spare, program) = parameters.split_first().unwrap_or((&0, &[]));
                let mut sheet = match compared.judge(Mode::Lenient, file)?.number {
                    0 => sheet_of(Mode::Lenient, file)?,
                    _ => Sheet::default(),
                };
                edits::edit(&mut sheet, program);
                let written = output(compared, Call::Write(mode, &sheet), *spare)?;
                read_back(mode, &sheet, written)
            }
            Function::Clear => match output(compared, Call::Clear(file), first(parameters))? {
                Some(copy) => cleared_again(compared, copy),
                None => Ok(()),
            },
            Function::SlipOf => output(compared, Call::SlipOf(file), first(parameters)).map(drop),
            Function::WriteSlip => {
                let numbers = numbers(file);
                output(compared, Call::Slip(&numbers), first(parameters)).map(drop)
            }
            Function::ReadSlip => compared.slip(file).map(drop),
            Function::Label => compared.label(file).map(drop),
            Function::Pieces => {
                let ends = ends(file.len(), parameters);
                let mut rng = Rng::new(u64::from(first(parameters)));
                compared.in_pieces(file, joined(file), &ends, &mut rng)
            }
            Function::State => states::changed(compared, file, parameters),
            Function::Rows => states::rows(compared, file, parameters),
            Function::Skeleton => cal3d(compared, Skeleton, file, parameters),
            Function::Mesh => {
                let (bones, parameters) = parameters.split_first().unwrap_or((&0, &[]));
                let bones = match bones {
                    0xFF => u32::MAX,
                    0xFE => 1 << 31,
                    few => u32::from(*few),
                };
                cal3d(compared, Mesh { bones }, file, parameters)
            }
            Function::Compare => listed(compared, file, second, first(parameters)),
            Function::Mend => {
                let spare = [0, 1].map(|at| *parameters.get(at).unwrap_or(&0));
                mended(compared, file, spare)
            }
        }
    }
}

/// Longest input; what stands behind is left out.
pub const LONGEST: usize = 1 << 20;

/// Runs inputs, one after the other.
pub struct Runner {
    pub compared: Compared,
    /// Where the files are put that are lent.
    memory: [Guarded; 2],
}

impl Default for Runner {
    fn default() -> Runner {
        Runner {
            compared: Compared::default(),
            memory: [(); 2].map(|()| Guarded::new(2 * LONGEST)),
        }
    }
}

impl Runner {
    /// Compares on an input. Its files stand beside memory that must not be touched, and
    /// must stay as they were.
    pub fn run(&mut self, bytes: &[u8]) -> Result<(), Disagreement> {
        let input = Input::of(&bytes[..bytes.len().min(LONGEST)]);
        let (first, second) = input.files();
        let at_end = input.first & AT_START == 0;
        let [memory, other_memory] = &mut self.memory;
        let lent = memory.hold(first, at_end);
        let other_lent = other_memory.hold(&second, at_end);
        let call = input.with_file(lent);
        call.compare(&mut self.compared, other_lent)?;
        match black_box(lent) == first && black_box(other_lent) == second {
            true => Ok(()),
            false => disagree("a lent file was changed", first),
        }
    }
}

/// Judges in a mode that is given as a number: 1 is the lenient one, all others are strict.
fn by_number(compared: &mut Compared, number: u32, file: &[u8]) -> Result<(), Disagreement> {
    let mode = match number {
        1 => Mode::Lenient,
        _ => Mode::Strict,
    };
    // SAFETY: the pointer holds for the length, and nothing is written.
    let answer = own(unsafe { kelompuris_b3d_judge(number, file.as_ptr(), file.len()) });
    match answer == compared.judge(mode, file)? {
        true => Ok(()),
        false => disagree(format!("judge in mode {number}: {answer:?}"), file),
    }
}

fn first(parameters: &[u8]) -> u8 {
    *parameters.first().unwrap_or(&0)
}

/// Lengths of tables to lend: those of their rows; a pair of parameters is a table and
/// how many words more it has, or, as a number below 0, less.
fn lengths<const TABLES: usize>(mut rows: [usize; TABLES], parameters: &[u8]) -> [usize; TABLES] {
    for pair in parameters.chunks_exact(2) {
        let length = &mut rows[usize::from(pair[0]) % TABLES];
        *length = with_spare(*length, pair[1]);
    }
    rows
}

/// Where pieces of a file end that are so long; what is left is one more.
fn ends(size: usize, lengths: &[u8]) -> Vec<usize> {
    let next = |end: &mut usize, &length: &u8| {
        *end = size.min(*end + usize::from(length));
        Some(*end)
    };
    lengths.iter().scan(0, next).collect()
}

/// The twelve numbers that a file begins with; 0 where it ends.
fn numbers(file: &[u8]) -> [u32; 12] {
    std::array::from_fn(|number| {
        let byte = |at: usize| *file.get(4 * number + at).unwrap_or(&0);
        u32::from_le_bytes([byte(0), byte(1), byte(2), byte(3)])
    })
}

/// Calls with no output, then, where that is too short, with one that has `spare` bytes
/// more than are needed, or, below 0, less. The bytes written, if any are.
fn output(compared: &mut Compared, call: Call, spare: u8) -> Result<Option<Vec<u8>>, Disagreement> {
    let (asked, _) = compared.output(call, 0)?;
    let size = match asked.number {
        11 => with_spare(asked.place as usize, spare),
        _ => usize::from(spare),
    };
    let (answer, bytes) = compared.output(call, size)?;
    Ok((answer.number == 0).then_some(bytes))
}

/// What is written reads back.
fn read_back(mode: Mode, sheet: &Sheet, written: Option<Vec<u8>>) -> Result<(), Disagreement> {
    match written {
        Some(bytes) if !sheet_of(mode, &bytes)?.same_but_name_places(sheet) => {
            disagree("write: other words or names in what is written", &bytes)
        }
        _ => Ok(()),
    }
}

/// A cleared copy is its own.
fn cleared_again(compared: &mut Compared, copy: Vec<u8>) -> Result<(), Disagreement> {
    match output(compared, Call::Clear(&copy), 0)? {
        Some(again) if again == copy => Ok(()),
        _ => disagree("clear: the copy has another", &copy),
    }
}

/// Compares two files with no output, then as `output` does. The list of the second and the
/// first file is as long.
fn listed(
    compared: &mut Compared,
    first: &[u8],
    second: &[u8],
    spare: u8,
) -> Result<(), Disagreement> {
    let (asked, _) = compared.list(first, second, 0)?;
    let size = match asked.number {
        11 => with_spare(asked.place as usize, spare),
        _ => usize::from(spare),
    };
    compared.list(first, second, size)?;
    let (turned, _) = compared.list(second, first, 0)?;
    let accepted = |number| matches!(number, 0 | 11);
    match accepted(asked.number) && turned != asked {
        true => disagree(format!("compare: {asked:?}, turned {turned:?}"), second),
        false => Ok(()),
    }
}

/// Mends a file with no output, with one for the file alone, and with outputs that have so
/// many bytes more than are needed, or, below 0, less. What is mended is accepted and comes
/// back as it was, as each accepted file does.
fn mended(compared: &mut Compared, file: &[u8], spare: [u8; 2]) -> Result<(), Disagreement> {
    let (asked, ..) = compared.mended(file, 0, 0)?;
    if asked.number != 11 {
        let [size, report_size] = spare.map(usize::from);
        return compared.mended(file, size, report_size).map(drop);
    }
    let size = asked.place as usize;
    let (answer, ..) = compared.mended(file, size, 0)?;
    let report_size = match answer.number {
        0 => 0,
        _ => answer.place as usize,
    };
    let sizes = [
        with_spare(size, spare[0]),
        with_spare(report_size, spare[1]),
    ];
    compared.mended(file, sizes[0], sizes[1])?;
    let (_, mended, _) = compared.mended(file, size, report_size)?;
    let (again, same, _) = compared.mended(&mended, mended.len(), 0)?;
    if compared.judge(Mode::Lenient, &mended)?.number != 0 || again.number != 0 || same != mended {
        return disagree("mend: what is mended is refused, or mended again", file);
    }
    let accepted = compared.judge(Mode::Lenient, file)?.number == 0;
    match accepted == (mended == file && report_size == 0) {
        true => Ok(()),
        false => disagree(
            "mend: an accepted file changed, or a refused one did not",
            file,
        ),
    }
}

/// A size with so many more, or, as a number below 0, less.
fn with_spare(size: usize, spare: u8) -> usize {
    size.saturating_add_signed(isize::from(spare as i8))
}

fn cal3d<F: Format<H, T>, const H: usize, const T: usize>(
    compared: &mut Compared,
    format: F,
    file: &[u8],
    parameters: &[u8],
) -> Result<(), Disagreement> {
    let answer = compared.cal3d_judge(format, file)?;
    let rows = row_words(&answer.counts, &F::WIDTHS);
    compared
        .cal3d_read(format, file, lengths(rows, parameters))
        .map(drop)
}
