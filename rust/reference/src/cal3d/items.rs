//! Items one after the other: their bytes first, then each number by its rule.

use crate::limits::{LARGEST_FILE, SMALLEST_FILE};
use crate::refusal::{refuse, Refusal, CUT, FILE_SIZE, ID, RANGE};

/// What a number must be.
#[derive(Clone, Copy)]
pub enum Rule {
    Any,
    Exactly(u32),
    /// Not negative.
    Count,
    /// An id below this count, and not negative.
    Id(u32),
    /// Such an id, or -1.
    IdOrNone(u32),
}

impl Rule {
    fn check(self, number: u32, place: usize) -> Result<(), Refusal> {
        let signed = number as i32;
        match self {
            Rule::Any => Ok(()),
            Rule::Exactly(wanted) if number == wanted => Ok(()),
            Rule::Count if signed >= 0 => Ok(()),
            Rule::Id(count) if signed >= 0 && number < count => Ok(()),
            Rule::IdOrNone(count) if signed == -1 || (signed >= 0 && number < count) => Ok(()),
            Rule::Exactly(_) | Rule::Count => refuse(RANGE, place),
            Rule::Id(_) | Rule::IdOrNone(_) => refuse(ID, place),
        }
    }
}

/// A file, and how far it has been read.
pub struct Items<'a> {
    file: &'a [u8],
    pub place: usize,
}

impl<'a> Items<'a> {
    /// The file behind its magic token.
    pub fn open(file: &'a [u8], magic: &[u8; 4]) -> Result<Items<'a>, Refusal> {
        if file.len() < SMALLEST_FILE || file.len() > LARGEST_FILE {
            return refuse(FILE_SIZE, 0);
        }
        if &file[..4] != magic {
            return refuse(super::MAGIC, 0);
        }
        Ok(Items { file, place: 4 })
    }

    fn bytes(&mut self, count: usize) -> Result<&'a [u8], Refusal> {
        if self.file.len() - self.place < count {
            return refuse(CUT, self.place);
        }
        let start = self.place;
        self.place += count;
        Ok(&self.file[start..self.place])
    }

    /// One item of numbers.
    pub fn numbers(&mut self, rules: &[Rule]) -> Result<Vec<u32>, Refusal> {
        let start = self.place;
        let bytes = self.bytes(4 * rules.len())?;
        let mut numbers = Vec::new();
        for (index, rule) in rules.iter().enumerate() {
            let at = 4 * index;
            let number =
                u32::from_le_bytes([bytes[at], bytes[at + 1], bytes[at + 2], bytes[at + 3]]);
            rule.check(number, start + at)?;
            numbers.push(number);
        }
        Ok(numbers)
    }

    /// A name, of this length: its place.
    pub fn name(&mut self, length: u32) -> Result<usize, Refusal> {
        let place = self.place;
        self.bytes(length as usize)?;
        Ok(place)
    }

    /// Nothing may follow.
    pub fn close(self) -> Result<(), Refusal> {
        match self.file.len() - self.place {
            0 => Ok(()),
            _ => refuse(CUT, self.place),
        }
    }
}
