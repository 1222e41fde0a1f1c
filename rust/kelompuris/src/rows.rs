//! Rows of tables with named fields, over the words that the reader gives.

use std::fmt;
use std::iter::FusedIterator;
use std::marker::PhantomData;
use std::ops::Range;

/// No such row.
pub(crate) const NONE: u32 = u32::MAX;

/// A row of a table: its words, and the bytes that hold the names.
pub trait Row<'a>: Sized {
    /// Words of a row.
    const WORDS: usize;

    /// The row with these words, as many as it has, and names.
    fn over(words: &'a [u32], names: &'a [u8]) -> Self;

    /// Its words.
    fn words(&self) -> &'a [u32];
}

/// The rows of a table, one after the other.
#[derive(Clone)]
#[must_use = "rows do nothing until they are taken"]
pub struct Rows<'a, R> {
    words: &'a [u32],
    names: &'a [u8],
    rows: PhantomData<R>,
}

impl<'a, R: Row<'a>> Rows<'a, R> {
    pub(crate) fn over(words: &'a [u32], names: &'a [u8]) -> Rows<'a, R> {
        Rows {
            words,
            names,
            rows: PhantomData,
        }
    }

    /// The row `number`, counted from 0.
    pub fn get(&self, number: usize) -> Option<R> {
        self.clone_rows().nth(number)
    }

    fn clone_rows(&self) -> Rows<'a, R> {
        Rows::over(self.words, self.names)
    }
}

impl<'a, R: Row<'a>> Iterator for Rows<'a, R> {
    type Item = R;

    fn next(&mut self) -> Option<R> {
        let (words, left) = self.words.split_at_checked(R::WORDS)?;
        self.words = left;
        Some(R::over(words, self.names))
    }

    fn size_hint(&self) -> (usize, Option<usize>) {
        let rows = self.words.len() / R::WORDS;
        (rows, Some(rows))
    }

    fn nth(&mut self, number: usize) -> Option<R> {
        let passed = number
            .checked_mul(R::WORDS)
            .and_then(|words| self.words.get(words..));
        self.words = passed.unwrap_or_default();
        self.next()
    }
}

/// Tells how many rows are left, and no name.
impl<'a, R: Row<'a>> fmt::Debug for Rows<'a, R> {
    fn fmt(&self, formatter: &mut fmt::Formatter) -> fmt::Result {
        write!(formatter, "Rows({})", self.len())
    }
}

impl<'a, R: Row<'a>> ExactSizeIterator for Rows<'a, R> {}
impl<'a, R: Row<'a>> FusedIterator for Rows<'a, R> {}

/// A type of rows with `$words` words.
macro_rules! row {
    ($(#[$about:meta])* $row:ident, $words:expr) => {
        $(#[$about])*
        #[derive(Clone, Copy)]
        pub struct $row<'a> {
            words: &'a [u32],
            // Not all rows have a name.
            #[allow(dead_code)]
            names: &'a [u8],
        }

        impl<'a> $crate::rows::Row<'a> for $row<'a> {
            const WORDS: usize = $words;

            fn over(words: &'a [u32], names: &'a [u8]) -> Self {
                $row { words, names }
            }

            fn words(&self) -> &'a [u32] {
                self.words
            }
        }

        /// Tells the words, and no name.
        impl std::fmt::Debug for $row<'_> {
            fn fmt(&self, formatter: &mut std::fmt::Formatter) -> std::fmt::Result {
                formatter.debug_tuple(stringify!($row)).field(&self.words).finish()
            }
        }
    };
}

pub(crate) use row;

/// The bytes at a place, of a length; none where the names have no such part.
pub(crate) fn name(names: &[u8], place: u32, length: u32) -> &[u8] {
    let behind = names.get(place as usize..).unwrap_or_default();
    behind.get(..length as usize).unwrap_or_default()
}

/// The floats from word `first` on.
pub(crate) fn floats<const COUNT: usize>(words: &[u32], first: usize) -> [f32; COUNT] {
    std::array::from_fn(|number| f32::from_bits(words[first + number]))
}

/// An id that may be absent.
pub(crate) fn id(word: u32) -> Option<usize> {
    (word != NONE).then_some(word as usize)
}

/// `count` rows from row `first` on.
pub(crate) fn range(first: u32, count: u32) -> Range<usize> {
    let first = first as usize;
    first..first + count as usize
}
