use crate::{disagree, lent, proved, Compared, Disagreement, Planted};
use reference::{Mode, Written};
use scenes::sheet::ROW_WORDS;
use scenes::{Rng, Sheet};
use std::hint::black_box;

/// A call of a function that writes, the output aside.
#[derive(Clone, Copy)]
pub enum Call<'a> {
    Write(Mode, &'a Sheet),
    Clear(&'a [u8]),
    /// The slip of a file.
    SlipOf(&'a [u8]),
    /// The slip of these numbers.
    Slip(&'a [u32; 12]),
}

impl Call<'_> {
    /// Calls the proved function; none where it changed what it was lent to read.
    fn proved(&self, out: &mut [u8]) -> Option<Written> {
        let answer = match self {
            Call::Write(mode, sheet) => return proved_write(*mode, sheet, out),
            Call::Clear(file) => kelompuris::clear(file, out),
            Call::SlipOf(file) => kelompuris::slip_of(file, out),
            Call::Slip(numbers) => return proved_slip(numbers, out),
        };
        Some(own(answer))
    }

    fn plain(&self, out: &mut [u8]) -> Written {
        match self {
            Call::Write(mode, sheet) => reference::write(
                *mode,
                &sheet.slices(),
                &sheet.counts,
                sheet.version,
                sheet.n_texs,
                &sheet.names,
                out,
            ),
            Call::Clear(file) => reference::clear(file, out),
            Call::SlipOf(file) => reference::slip_of(file, out),
            Call::Slip(numbers) => reference::write_slip(numbers, out),
        }
    }

    fn disagree<T>(&self, about: String) -> Result<T, Disagreement> {
        match self {
            Call::Write(mode, sheet) => {
                let about = format!("write, {mode:?}: {about}: {}", shown(sheet));
                disagree(about, &sheet.names)
            }
            Call::Clear(file) => disagree(format!("clear: {about}"), file),
            Call::SlipOf(file) => disagree(format!("slip of a file: {about}"), file),
            Call::Slip(numbers) => disagree(format!("slip of {numbers:?}: {about}"), &[]),
        }
    }
}

/// The proved answer as one of the reference.
fn own(answer: kelompuris::Written) -> Written {
    Written {
        number: answer.number,
        place: answer.place,
        size: answer.size,
    }
}

/// Writes tables by the proved writer. Tables, counts and names stand among other words and
/// bytes; none where one of all these changed.
fn proved_write(mode: Mode, sheet: &Sheet, out: &mut [u8]) -> Option<Written> {
    let tables = lent::Lent::holding(&sheet.slices());
    let counts = lent::Lent::holding(&[&sheet.counts]);
    let names = Lent::holding(&sheet.names);
    let (lent_tables, [lent_counts]) = (tables.held(), counts.held());
    let answer = kelompuris::write(
        proved(mode),
        &lent_tables,
        lent_counts.try_into().expect("ten counts"),
        sheet.version,
        sheet.n_texs,
        names.held(),
        out,
    );
    let same = tables.holds(&sheet.slices())
        && counts.holds(&[&sheet.counts])
        && black_box(&names).0 == Lent::holding(&sheet.names).0;
    same.then_some(own(answer))
}

/// Writes the slip of numbers by the proved function. They stand among other words; none where
/// one of all these changed.
fn proved_slip(numbers: &[u32; 12], out: &mut [u8]) -> Option<Written> {
    let lent = lent::Lent::holding(&[&numbers[..]]);
    let [held] = lent.held();
    let answer = kelompuris::write_slip(held.try_into().expect("twelve numbers"), out);
    lent.holds(&[&numbers[..]]).then_some(own(answer))
}

/// Tables to be printed, where they are small.
fn shown(sheet: &Sheet) -> String {
    let (counts, version, n_texs) = (&sheet.counts, sheet.version, sheet.n_texs);
    let words: usize = sheet.tables.iter().map(Vec::len).sum();
    match words < 2000 {
        true => format!("{counts:?}, {version}, {n_texs}, {:?}", sheet.tables),
        false => format!("{counts:?}, {version}, {n_texs}"),
    }
}

/// Bytes before and behind each lent output.
const AROUND: usize = 3;

/// Bytes of an output that would do for small files.
const ENOUGH: usize = 4000;

impl Compared {
    /// Calls with outputs of several sizes: empty; then, unless that is refused
    /// by another number than 11, shorter, one byte short, just enough and
    /// longer. The bytes written, or the refusal.
    pub fn call(
        &mut self,
        call: Call,
        rng: &mut Rng,
    ) -> Result<Result<Vec<u8>, Written>, Disagreement> {
        let (asked, _) = self.output(call, 0)?;
        if asked.number != 11 {
            let (again, _) = self.output(call, ENOUGH)?;
            return match again == asked && asked.number != 0 && asked.size == 0 {
                true => Ok(Err(asked)),
                false => call.disagree(format!("{asked:?} to an empty output, then {again:?}")),
            };
        }
        let size = asked.place as usize;
        for short in [rng.below(size.max(1)), size.saturating_sub(1)] {
            let (answer, _) = self.output(call, short)?;
            if answer != asked {
                return call.disagree(format!("both answer {answer:?} to {short} of {size} bytes"));
            }
        }
        let (exact, bytes) = self.output(call, size)?;
        let (longer, same) = self.output(call, size + rng.between(1, 50))?;
        let written = Written {
            number: 0,
            place: 0,
            size: asked.place,
        };
        match (exact, longer) == (written, written) && bytes == same {
            true => Ok(Ok(bytes)),
            false => call.disagree(format!("{asked:?}, then {exact:?}, {longer:?}")),
        }
    }

    /// The bytes that a call must write.
    pub fn written(&mut self, call: Call, rng: &mut Rng) -> Result<Vec<u8>, Disagreement> {
        match self.call(call, rng)? {
            Ok(bytes) => Ok(bytes),
            Err(refusal) => call.disagree(format!("both answer {refusal:?}")),
        }
    }

    /// Calls both with an output of this size among other bytes; their answer
    /// and the bytes written.
    pub fn output(&mut self, call: Call, size: usize) -> Result<(Written, Vec<u8>), Disagreement> {
        self.outputs += 1;
        let (mut proved, mut plain) = (Lent::new(size), Lent::new(size));
        let Some(mut answer) = call.proved(proved.part()) else {
            return call.disagree("what was lent to be read was changed".to_string());
        };
        let expected = call.plain(plain.part());
        self.count(answer.number);
        self.bytes += proved.len();
        let about = format!("output of {size} bytes");
        if self.planted == Some(Planted::Number(answer.number)) {
            answer.number += 1;
        }
        if answer != expected {
            let values = format!("proved {answer:?}, reference {expected:?}");
            return call.disagree(format!("{about}: {values}"));
        }
        let written = answer.size as usize;
        match self.wrong(&proved, &plain, written) {
            None => Ok((answer, proved.written(written))),
            Some(wrong) => call.disagree(format!("{about}: {wrong}")),
        }
    }
}

/// A lent output, with bytes before and behind it.
#[derive(Clone)]
pub struct Lent(Vec<u8>);

impl Lent {
    pub fn new(size: usize) -> Lent {
        Lent((0..size + 2 * AROUND).map(pattern).collect())
    }

    /// These bytes, to be read.
    fn holding(bytes: &[u8]) -> Lent {
        let mut lent = Lent::new(bytes.len());
        lent.part().copy_from_slice(bytes);
        lent
    }

    fn held(&self) -> &[u8] {
        &self.0[AROUND..self.0.len() - AROUND]
    }

    /// The output.
    pub fn part(&mut self) -> &mut [u8] {
        let end = self.0.len() - AROUND;
        &mut self.0[AROUND..end]
    }

    /// Its bytes, those around it too.
    pub fn len(&self) -> usize {
        self.0.len()
    }

    /// What was written: so many bytes from its start.
    pub fn written(&self, size: usize) -> Vec<u8> {
        self.0[AROUND..AROUND + size].to_vec()
    }

    /// Puts a fault into it, of which so many bytes are written.
    pub fn plant(&mut self, planted: Planted, size: usize) {
        let end = self.0.len() - AROUND;
        match planted {
            Planted::Written if size > 0 => self.0[AROUND + size - 1] ^= 1,
            Planted::Before => self.0[AROUND - 1] ^= 1,
            Planted::Behind => self.0[end] ^= 1,
            _ => {}
        }
    }

    /// Where it is not as the reference's, or changed outside what was written.
    pub fn wrong(&self, plain: &Lent, size: usize) -> Option<String> {
        if let Some(at) = (0..self.0.len()).find(|&at| self.0[at] != plain.0[at]) {
            let values = format!("proved {:#x}, reference {:#x}", self.0[at], plain.0[at]);
            let at = at as isize - AROUND as isize;
            return Some(format!("byte {at}: {values}"));
        }
        let end = AROUND + size;
        let mut outside = (0..AROUND).chain(end..self.0.len());
        match outside.all(|at| self.0[at] == pattern(at)) {
            true => None,
            false => Some("changed outside the bytes written".to_string()),
        }
    }
}

/// The byte that stands there before a call.
fn pattern(at: usize) -> u8 {
    (at as u32).wrapping_mul(0x9E37_79B1).to_be_bytes()[0] ^ 0xB7
}

/// The words of a file that the proved reader accepts in a mode; the names are
/// the file.
pub fn sheet_of(mode: Mode, file: &[u8]) -> Result<Sheet, Disagreement> {
    let mode = proved(mode);
    let counts = kelompuris::judge(mode, file).counts;
    let rows = |table| counts[table] as usize * ROW_WORDS[table];
    let mut tables: [Vec<u32>; 10] = std::array::from_fn(|table| vec![0; rows(table)]);
    let answer = kelompuris::read(
        mode,
        file,
        &mut tables.each_mut().map(|table| &mut table[..]),
    );
    if answer.number != 0 {
        return disagree(format!("read: {answer:?}"), file);
    }
    Ok(Sheet {
        tables,
        counts: answer.counts,
        version: answer.version,
        n_texs: answer.n_texs,
        names: file.to_vec(),
    })
}
