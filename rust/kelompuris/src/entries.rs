//! What a comparison lists and what a mending reports, entry by entry.

use crate::columns::{Kind, TABLES};
use crate::groups::Bytes;
use crate::refusal::{Refusal, TOO_SHORT};
use crate::{compare, mend};
use std::iter::FusedIterator;

/// What a cell holds in both files, the first one's first.
#[derive(Clone, Copy, Debug, PartialEq)]
pub enum Cells<'a> {
    /// Two whole numbers by their bits: NONE, where an id is absent, is `u32::MAX`.
    Whole(u32, u32),
    /// Two floats. They are compared by their bits, so both may be NaN.
    Float(f32, f32),
    /// Two names.
    Name(&'a [u8], &'a [u8]),
}

/// A cell that differs.
#[derive(Clone, Copy, Debug, PartialEq)]
pub struct Difference<'a> {
    /// 1 to 10, or 0 for version, n_texs and the ten row counts, which are the words 0 to 11 of its row 0.
    pub table: u32,
    pub row: u32,
    /// The word of its row; that of a name is 0.
    pub word: u32,
    pub cells: Cells<'a>,
}

/// What differs between two files.
#[derive(Clone, Debug, PartialEq, Eq)]
pub struct Comparison {
    list: Vec<u8>,
}

impl Comparison {
    /// The list as bytes, in groups of seven bits.
    pub fn list(&self) -> &[u8] {
        &self.list
    }

    /// The cells that differ, in order of table, row and word.
    pub fn differences(&self) -> Differences<'_> {
        Differences(Bytes(&self.list))
    }
}

/// The cells that differ, one after the other.
#[derive(Clone, Debug)]
#[must_use = "differences do nothing until they are taken"]
pub struct Differences<'a>(Bytes<'a>);

impl<'a> Iterator for Differences<'a> {
    type Item = Difference<'a>;

    fn next(&mut self) -> Option<Difference<'a>> {
        if self.0.is_empty() {
            return None;
        }
        let list = &mut self.0;
        let [table, row, word, old, new] = std::array::from_fn(|_| list.number());
        let columns = (table as usize)
            .checked_sub(1)
            .and_then(|table| TABLES.get(table));
        let column = columns.and_then(|table| table.column(word as usize));
        let cells = match column {
            Some((Kind::Float, _)) => Cells::Float(f32::from_bits(old), f32::from_bits(new)),
            Some((Kind::Name, _)) => Cells::Name(list.part(old), list.part(new)),
            _ => Cells::Whole(old, new),
        };
        Some(Difference {
            table,
            row,
            word,
            cells,
        })
    }
}

impl FusedIterator for Differences<'_> {}

/// What differs between two files: the first one's refusals 1 to 10 of the lenient mode, then the second's.
///
/// ```
/// use kelompuris::{clear_to_vec, compare_to_vec, Cells};
///
/// # fn main() -> Result<(), Box<dyn std::error::Error>> {
/// let hall = std::fs::read("../../samples/hall.b3d")?;
/// let compared = compare_to_vec(&hall, &clear_to_vec(&hall)?)?;
/// let difference = compared.differences().next().expect("a name that is gone");
/// assert_eq!((difference.table, difference.row, difference.word), (3, 0, 0));
/// assert_eq!(difference.cells, Cells::Name(b"Hall", b""));
///
/// assert_eq!(compare_to_vec(&hall, &hall)?.differences().count(), 0);
/// assert_eq!(compare_to_vec(&hall, b"no scene").unwrap_err().which(), Some(2));
/// # Ok(())
/// # }
/// ```
pub fn compare_to_vec(first: &[u8], second: &[u8]) -> Result<Comparison, Refusal> {
    let asked = compare(first, second, &mut []);
    let mut list = Vec::new();
    if asked.number == TOO_SHORT {
        // A size that is no `usize` is one that cannot be lent.
        list.resize(usize::try_from(asked.place).unwrap_or(usize::MAX), 0);
    }
    compare(first, second, &mut list).result()?;
    Ok(Comparison { list })
}

/// Which of the four a mend is.
#[derive(Clone, Copy, Debug, PartialEq, Eq)]
pub enum MendKind {
    /// A wrong length of BB3D: it ends where the file does.
    Length,
    /// A brush or texture id that names nothing: it is -1.
    Id,
    /// A triangle or weight with a vertex id that names nothing: it is taken out.
    Item,
    /// 1 to 7 bytes at the end of BB3D, NODE or MESH: they are taken out.
    Spare,
}

/// A mend: where its bytes begin in the given file, and those bytes in the given and in the mended file.
#[derive(Clone, Copy, Debug, PartialEq, Eq)]
pub struct Mend<'a> {
    pub place: u32,
    pub kind: MendKind,
    pub given: &'a [u8],
    pub mended: &'a [u8],
}

/// A mended file and what was mended.
#[derive(Clone, Debug, PartialEq, Eq)]
pub struct Mending {
    file: Vec<u8>,
    report: Vec<u8>,
}

impl Mending {
    /// The mended file.
    pub fn file(&self) -> &[u8] {
        &self.file
    }

    /// The report as bytes, in groups of seven bits; empty if there was nothing to mend.
    pub fn report(&self) -> &[u8] {
        &self.report
    }

    /// The mends, in order of their places.
    pub fn mends(&self) -> Mends<'_> {
        Mends(Bytes(&self.report))
    }
}

/// The mends of a report, one after the other.
#[derive(Clone, Debug)]
#[must_use = "mends do nothing until they are taken"]
pub struct Mends<'a>(Bytes<'a>);

impl<'a> Iterator for Mends<'a> {
    type Item = Mend<'a>;

    fn next(&mut self) -> Option<Mend<'a>> {
        if self.0.is_empty() {
            return None;
        }
        let [place, kind, before, after] = std::array::from_fn(|_| self.0.number());
        let kind = match kind {
            1 => MendKind::Length,
            2 => MendKind::Id,
            3 => MendKind::Item,
            _ => MendKind::Spare,
        };
        Some(Mend {
            place,
            kind,
            given: self.0.part(before),
            mended: self.0.part(after),
        })
    }
}

impl FusedIterator for Mends<'_> {}

/// Mends a file: its first fault of another kind than the four.
///
/// ```
/// use kelompuris::{mend_to_vec, MendKind};
///
/// # fn main() -> Result<(), Box<dyn std::error::Error>> {
/// let hall = std::fs::read("../../samples/hall.b3d")?;
/// let mut longer = hall.clone();
/// longer.extend(b"abc");
/// let mending = mend_to_vec(&longer)?;
/// assert_eq!(mending.file(), hall);
/// let spare = mending.mends().last().expect("a mend");
/// assert_eq!((spare.place, spare.kind, spare.given), (65, MendKind::Spare, &b"abc"[..]));
/// # Ok(())
/// # }
/// ```
pub fn mend_to_vec(file: &[u8]) -> Result<Mending, Refusal> {
    let (mut mended, mut report) = (Vec::new(), Vec::new());
    let asked = mend(file, &mut mended, &mut report);
    if asked.number == TOO_SHORT {
        mended.resize(asked.place as usize, 0);
    }
    let asked = mend(file, &mut mended, &mut report);
    if asked.number == TOO_SHORT {
        report.resize(asked.place as usize, 0);
    }
    mend(file, &mut mended, &mut report).result()?;
    let file = mended;
    Ok(Mending { file, report })
}
