use crate::{disagree, Compared, Disagreement, Planted};
use kelompuris::row_by_row::{next, start, Given, State, WORDS};
use reference::Mode;
use scenes::sheet::ROW_WORDS;

/// What stands in and around a row before it is lent.
const MARK: u32 = 0xA5C3_0F1E;

/// The sizes that a file may have.
const SIZES: std::ops::RangeInclusive<usize> = 12..=16_777_216;

impl Compared {
    /// Takes the rows of all tables one after the other. Of a file that the lenient mode
    /// accepts they are those of the reference's tables; those of any other end too.
    pub fn row_by_row(&mut self, file: &[u8]) -> Result<(), Disagreement> {
        self.files += 1;
        let answer = reference::judge(Mode::Lenient, file);
        let mut tables = crate::row_words(&answer.counts, &ROW_WORDS).map(|words| vec![0; words]);
        let lent = &mut tables.each_mut().map(Vec::as_mut_slice);
        reference::read(Mode::Lenient, file, lent);
        for (table, expected) in (1..).zip(&tables) {
            let rows = self.rows(file, table)?;
            if answer.number == 0 && rows != *expected {
                return disagree(format!("table {table} row by row: other words"), file);
            }
        }
        match self.rows(file, 0)?.is_empty() && self.rows(file, 11)?.is_empty() {
            true => Ok(()),
            false => disagree("rows of no table", file),
        }
    }

    /// The words of the rows of a table, taken one after the other.
    fn rows(&mut self, file: &[u8], table: u32) -> Result<Vec<u32>, Disagreement> {
        let first = start(file, table);
        let starts = (1..=10).contains(&table) && SIZES.contains(&file.len());
        if !starts && first != State::default() {
            return disagree(format!("table {table} starts by {first:?}"), file);
        }
        let (mut state, mut words) = (first, Vec::new());
        loop {
            let (given, row) = self.next_row(file, state)?;
            if given.number != if starts { 0 } else { 15 } {
                return disagree(format!("table {table}: {given:?}"), file);
            }
            if given.rows == 0 {
                return Ok(words);
            }
            words.extend(row);
            state = given.state;
            if words.len() > 42 * file.len() {
                return disagree(format!("table {table}: more rows than bytes"), file);
            }
        }
    }

    /// The next row from any state on: it is given, or nothing is changed, the state
    /// too; a short row is refused.
    pub fn next_row(
        &mut self,
        file: &[u8],
        state: State,
    ) -> Result<(Given, Vec<u32>), Disagreement> {
        let short = next(file, state, &mut [MARK; WORDS - 1]);
        if (short.number, short.place, short.rows, short.state) != (11, 42, 0, state) {
            return disagree(format!("a short row: {short:?}"), file);
        }
        let mut lent = [MARK; WORDS + 2];
        let mut given = next(file, state, &mut lent[1..=WORDS]);
        self.reads += 1;
        self.words += lent.len();
        self.count(given.number);
        let width = match given.rows {
            0 => 0,
            _ => ROW_WORDS[state.table as usize - 1],
        };
        match self.planted {
            Some(Planted::Number(number)) if number == given.number => given.number += 1,
            Some(Planted::Written) if width > 0 => lent[width + 1] ^= 1,
            Some(Planted::Before) => lent[0] ^= 1,
            Some(Planted::Behind) => lent[WORDS + 1] ^= 1,
            _ => {}
        }
        let kept = lent[0] == MARK && lent[width + 1..].iter().all(|&word| word == MARK);
        let known = match given.rows {
            0 => matches!(given.number, 0 | 15) && given.state == state,
            _ => (given.number, given.rows) == (0, 1) && given.state.table == state.table,
        };
        match kept && known && given.place == 0 {
            true => Ok((given, lent[1..=width].to_vec())),
            false => disagree(format!("a row from {state:?}: {given:?}, {lent:?}"), file),
        }
    }
}
