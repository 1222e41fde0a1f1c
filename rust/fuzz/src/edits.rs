//! A program of edits over the tables that a file has: bytes, read one after the
//! other until they end.

use scenes::sheet::ROW_WORDS;
use scenes::words::reshaped;
use scenes::{Rng, Sheet};

/// Runs a program. Its first byte asks for changes that need sound tables.
pub fn edit(sheet: &mut Sheet, program: &[u8]) {
    let mut program = Program(program);
    let Some(first) = program.byte() else {
        return;
    };
    if first & 1 != 0 {
        *sheet = sheet.with_own_names();
    }
    if first >= 4 {
        let changed = reshaped(sheet, &mut Rng::new(u64::from(first)));
        *sheet = changed.unwrap_or(std::mem::take(sheet));
    }
    while program.step(sheet).is_some() {}
    if first & 2 != 0 {
        sheet.count_branches();
    }
}

/// What is left of a program.
struct Program<'a>(&'a [u8]);

impl Program<'_> {
    fn byte(&mut self) -> Option<u8> {
        let (byte, rest) = self.0.split_first()?;
        self.0 = rest;
        Some(*byte)
    }

    /// A number below `count`; none where there is no such number.
    fn below(&mut self, count: usize) -> Option<usize> {
        usize::from(self.byte()?).checked_rem(count)
    }

    /// A word in place of this one: small, near to it, at an edge, or any.
    fn word(&mut self, old: u32) -> Option<u32> {
        const EDGES: [u32; 8] = [
            0xFFFF_FFFF,
            0xFFFF_FFFE,
            0x8000_0000,
            0x8000_0001,
            0x7FFF_FFFF,
            0x3F80_0000,
            0x3F80_0001,
            2_097_151,
        ];
        Some(match self.byte()? {
            small @ 0..=31 => u32::from(small),
            near @ 32..=63 => old.wrapping_add(u32::from(near)).wrapping_sub(47),
            edge @ 64..=71 => EDGES[usize::from(edge) - 64],
            _ => {
                let mut byte = || self.byte();
                u32::from_le_bytes([byte()?, byte()?, byte()?, byte()?])
            }
        })
    }

    /// A table and one of the rows that it holds, counted or not.
    fn row(&mut self, sheet: &Sheet) -> Option<(usize, usize)> {
        let table = self.below(10)?;
        let row = self.below(sheet.tables[table].len() / ROW_WORDS[table]);
        Some((table, row.unwrap_or(0)))
    }

    /// One edit; none at the end of the program.
    fn step(&mut self, sheet: &mut Sheet) -> Option<()> {
        let edit = self.byte()?;
        match edit % 12 {
            0 => {
                let count = &mut sheet.counts[self.below(10)?];
                *count = self.word(*count)?;
            }
            1 => sheet.version = self.word(sheet.version)?,
            2 => sheet.n_texs = self.word(sheet.n_texs)?,
            3 => {
                let (table, row) = self.row(sheet)?;
                let words = ROW_WORDS[table];
                let at = (row * words).min(sheet.tables[table].len());
                let end = (at + words).min(sheet.tables[table].len());
                let mut double = sheet.tables[table][at..end].to_vec();
                double.resize(words, 0);
                sheet.tables[table].splice(at..at, double);
                sheet.counts[table] = sheet.counts[table].wrapping_add(1);
            }
            4 => {
                let (table, row) = self.row(sheet)?;
                let words = ROW_WORDS[table];
                if (row + 1) * words <= sheet.tables[table].len() {
                    sheet.tables[table].drain(row * words..(row + 1) * words);
                    sheet.counts[table] = sheet.counts[table].wrapping_sub(1);
                }
            }
            5 => {
                let (table, row) = self.row(sheet)?;
                let words = ROW_WORDS[table];
                let other = self.below(sheet.tables[table].len() / words).unwrap_or(0);
                // The whole rows, or one word of both.
                let exchanged = match edit {
                    0..128 => 0..words,
                    _ => {
                        let word = self.below(words)?;
                        word..word + 1
                    }
                };
                if words <= sheet.tables[table].len() {
                    for word in exchanged {
                        sheet.tables[table].swap(row * words + word, other * words + word);
                    }
                }
            }
            6 => {
                let table = self.below(10)?;
                let spare = isize::from(self.byte()? as i8);
                let length = sheet.tables[table].len().saturating_add_signed(spare);
                sheet.tables[table].resize(length, 0);
            }
            7 => match self.below(sheet.names.len()) {
                Some(at) => sheet.names[at] = self.byte()?,
                None => sheet.names.push(self.byte()?),
            },
            8 => {
                let spare = isize::from(self.byte()? as i8);
                let length = sheet.names.len().saturating_add_signed(spare);
                sheet.names.resize(length, b'n');
            }
            _ => {
                let (table, row) = self.row(sheet)?;
                let at = row * ROW_WORDS[table] + self.below(ROW_WORDS[table])?;
                if let Some(word) = sheet.tables[table].get_mut(at) {
                    *word = self.word(*word)?;
                }
            }
        }
        Some(())
    }
}
