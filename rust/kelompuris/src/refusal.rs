//! Refusals, with their number, place and words.

use crate::cal3d::{MeshAnswer, SkeletonAnswer};
use crate::columns::{self, Table};
use crate::{Answer, Compared, Label, Mended, Slip, Written};
use std::error::Error;
use std::fmt::{self, Display, Formatter};

/// The number for lent tables or an output that are too short.
pub const TOO_SHORT: u32 = 11;

/// What is refused.
#[derive(Clone, Copy, Debug, PartialEq, Eq, Hash)]
pub enum Subject {
    /// A B3D scene, its tables, its slip or its label.
    Scene,
    /// A skeleton of cal3d.
    Skeleton,
    /// A mesh of cal3d.
    Mesh,
}

impl Subject {
    /// The tables of such a file.
    pub fn tables(self) -> &'static [Table] {
        match self {
            Subject::Scene => &columns::TABLES,
            Subject::Skeleton => &columns::cal3d::SKELETON,
            Subject::Mesh => &columns::cal3d::MESH,
        }
    }
}

/// Why a file, tables or a slip are refused: a number, the place of the fault, and words for both.
///
/// ```
/// use kelompuris::{check, Mode};
///
/// let refusal = check(Mode::Strict, b"BB3D").unwrap_err();
/// assert_eq!((refusal.number(), refusal.place()), (1, 0));
/// assert_eq!(refusal.to_string(), "1 at 0: a file size outside 12 to 16,777,216 bytes");
/// ```
#[derive(Clone, Copy, Debug, PartialEq, Eq, Hash)]
pub struct Refusal {
    subject: Subject,
    number: u32,
    place: u32,
    which: u32,
}

impl Refusal {
    /// The refusal with this number, which is not 0, and this place.
    pub fn new(subject: Subject, number: u32, place: u32) -> Refusal {
        Refusal {
            subject,
            number,
            place,
            which: 0,
        }
    }

    /// The number, 1 to 16, as `include/kelompuris.h` lists them.
    pub fn number(&self) -> u32 {
        self.number
    }

    /// A byte of the file or slip, or, of 10 and 11, a table or a size.
    pub fn place(&self) -> u32 {
        self.place
    }

    /// Of a comparison which of the two files is refused, 1 or 2.
    pub fn which(&self) -> Option<u32> {
        (self.which != 0).then_some(self.which)
    }

    /// What number and place mean.
    pub fn words(&self) -> String {
        let Refusal { subject, place, .. } = *self;
        let table = |what: &str| match subject.tables().get((place as usize).wrapping_sub(1)) {
            Some(table) => format!("{what} in table {place}, {}", table.many),
            None => format!("an output shorter than {place} bytes"),
        };
        let words = match (self.number, place, subject) {
            (1, ..) => "a file size outside 12 to 16,777,216 bytes",
            (2, 0, Subject::Scene) => "a first tag that is not BB3D",
            (2, _, Subject::Scene) => "a BB3D length that is not the file size minus 8",
            (2, _, Subject::Skeleton) => "a magic token that is not CSF",
            (2, _, Subject::Mesh) => "a magic token that is not CMF",
            (3, ..) => "a chunk header that is cut, or a length past the enclosing chunk",
            (4, ..) => "a known tag not allowed here, or once too often, or out of order",
            (5, _, Subject::Scene) => {
                "fixed data or an item past the end of its chunk, or an ANIM length not 12"
            }
            (5, ..) => "a name or an entry's numbers that are cut, or bytes after the last entry",
            (6, ..) => "a number outside its range",
            (7, ..) => "an id that names nothing",
            (8, ..) => "a MESH that ends without VRTS or TRIS",
            (9, ..) => "a node nested 17 deep",
            (10, _, Subject::Scene) => return table("more than 2,097,151 rows"),
            (10, ..) => return table("more than 16,383 rows"),
            (TOO_SHORT, ..) => return table("too few words lent"),
            (12, ..) => "tables that no accepted file has",
            (13, ..) => "a slip with a number that is wrong, or that is cut or too long",
            (14, ..) => {
                "no label: the way to the root's name or to its vertices is cut or leads nowhere"
            }
            (15, ..) => "a piece or a close after the close, or a state and a row that no calls lead to",
            (16, ..) => {
                "a bone that its parent does not list once, or another lists, or whose parents never end"
            }
            _ => "a refusal without words",
        };
        words.to_string()
    }
}

impl Display for Refusal {
    fn fmt(&self, formatter: &mut Formatter) -> fmt::Result {
        let Refusal { number, place, .. } = self;
        write!(formatter, "{number} at {place}: {}", self.words())
    }
}

impl Error for Refusal {}

/// An answer of one of the functions that lend tables, as a result.
macro_rules! result {
    ($answer:ty, $subject:expr) => {
        impl $answer {
            /// The answer itself, unless it is a refusal.
            pub fn result(self) -> Result<Self, Refusal> {
                match self.number {
                    0 => Ok(self),
                    number => Err(Refusal::new($subject, number, self.place)),
                }
            }
        }
    };
}

result!(Answer, Subject::Scene);
result!(Written, Subject::Scene);
result!(Slip, Subject::Scene);
result!(Label, Subject::Scene);
result!(Mended, Subject::Scene);
result!(SkeletonAnswer, Subject::Skeleton);
result!(MeshAnswer, Subject::Mesh);

impl Compared {
    /// The answer itself, unless it is a refusal, which says which file is refused.
    pub fn result(self) -> Result<Self, Refusal> {
        match self.number {
            0 => Ok(self),
            number => {
                let place = u32::try_from(self.place).unwrap_or(u32::MAX);
                let refusal = Refusal::new(Subject::Scene, number, place);
                let which = self.which;
                Err(Refusal { which, ..refusal })
            }
        }
    }
}

#[cfg(test)]
mod tests {
    use super::{Refusal, Subject};

    fn told(subject: Subject, number: u32, place: u32) -> String {
        Refusal::new(subject, number, place).to_string()
    }

    #[test]
    fn places_are_tables_for_ten_and_eleven() {
        let cases = [
            (
                Subject::Scene,
                10,
                3,
                "10 at 3: more than 2,097,151 rows in table 3, nodes",
            ),
            (
                Subject::Scene,
                11,
                10,
                "11 at 10: too few words lent in table 10, keys",
            ),
            (
                Subject::Scene,
                11,
                61,
                "11 at 61: an output shorter than 61 bytes",
            ),
            (
                Subject::Skeleton,
                10,
                2,
                "10 at 2: more than 16,383 rows in table 2, children",
            ),
            (
                Subject::Mesh,
                11,
                6,
                "11 at 6: too few words lent in table 6, faces",
            ),
        ];
        for (subject, number, place, line) in cases {
            assert_eq!(told(subject, number, place), line);
        }
    }

    fn words(subject: Subject, number: u32, place: u32) -> String {
        Refusal::new(subject, number, place).words()
    }

    #[test]
    fn each_number_has_its_own_words() {
        let all: std::collections::BTreeSet<String> = (1..=16)
            .map(|number| words(Subject::Scene, number, 1))
            .collect();
        assert_eq!(all.len(), 16);
        assert!(!all.contains(&words(Subject::Scene, 17, 1)));
    }

    #[test]
    fn two_and_five_have_words_of_the_format() {
        for number in [2, 5] {
            assert_ne!(
                words(Subject::Scene, number, 0),
                words(Subject::Skeleton, number, 0)
            );
        }
        assert_ne!(words(Subject::Mesh, 2, 0), words(Subject::Skeleton, 2, 0));
    }
}
