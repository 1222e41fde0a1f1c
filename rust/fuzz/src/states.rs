//! States and rows of the judge of pieces that no calls may have led to, and such states of a table's rows.

use compare::pieces::{any_number, Row};
use compare::{Compared, Disagreement};
use kelompuris::pieces::{piece, start, OpenChunk, State, RECORDS};
use kelompuris::row_by_row;
use scenes::Rng;

/// Numbers of a state, and of a record.
const STATE: usize = size_of::<State>() / 8;
const RECORD: usize = size_of::<OpenChunk>() / 8;

/// Numbers of 8 bytes of a state of rows, some of them two of 4.
const ROW_STATE: usize = size_of::<row_by_row::State>() / 8;

/// Hands over a part of a file, as long as two parameters say, changes numbers of state
/// and row, and hands over the rest. Three parameters are a change: which number, and how.
pub fn changed(
    compared: &mut Compared,
    file: &[u8],
    parameters: &[u8],
) -> Result<(), Disagreement> {
    let (length, changes) = parameters.split_at(parameters.len().min(2));
    let length = length
        .iter()
        .fold(0, |sum, &byte| sum << 8 | usize::from(byte));
    let (before, behind) = file.split_at(length.min(file.len()));
    let mut row = Row::any(RECORDS, &mut Rng::new(length as u64));
    let mut state = piece(start(), row.records(), before).state;
    for change in changes.chunks_exact(3) {
        let which = usize::from(change[0]);
        let number = match which % (STATE + 2 * RECORD) {
            own if own < STATE => &mut state_numbers(&mut state)[own],
            other => {
                let chunk = &mut row.records()[which % RECORDS];
                &mut record_numbers(chunk)[other % RECORD]
            }
        };
        *number = other_number(*number, change[1], change[2]);
    }
    let bytes = &behind[..behind.len().min(64)];
    compared.any_call(state, &mut row, bytes).map(drop)
}

/// Takes the rows of all tables; then those of the table that the first parameter names, where three parameters change the state before each: which number,
/// and how.
pub fn rows(compared: &mut Compared, file: &[u8], parameters: &[u8]) -> Result<(), Disagreement> {
    compared.row_by_row(file)?;
    let (table, changes) = parameters.split_first().unwrap_or((&0, &[]));
    let mut state = row_by_row::start(file, u32::from(table % 12));
    for change in changes.chunks_exact(3) {
        let number = &mut row_state_numbers(&mut state)[usize::from(change[0]) % ROW_STATE];
        *number = other_number(*number, change[1], change[2]);
        state = compared.next_row(file, state)?.0.state;
    }
    Ok(())
}

/// A number in place of this one: near to it, small, or at an edge.
fn other_number(old: u64, how: u8, value: u8) -> u64 {
    match how % 4 {
        0 => u64::from(value),
        1 => old.wrapping_add(1 + u64::from(value)),
        2 => old.wrapping_sub(1 + u64::from(value)),
        _ => any_number(&mut Rng::new(u64::from(value))) as u64,
    }
}

fn state_numbers(state: &mut State) -> &mut [u64; STATE] {
    // SAFETY: a state is whole numbers one behind the other, two of 4 bytes and then
    // those of 8, with no bytes between them; it is aligned as the latter are.
    unsafe { &mut *(state as *mut State).cast() }
}

fn row_state_numbers(state: &mut row_by_row::State) -> &mut [u64; ROW_STATE] {
    // SAFETY: a state is whole numbers one behind the other, four of 4 bytes, then those of 8
    // and then 16 of 4, with no bytes between them; it is aligned as those of 8 are.
    unsafe { &mut *(state as *mut row_by_row::State).cast() }
}

fn record_numbers(record: &mut OpenChunk) -> &mut [u64; RECORD] {
    // SAFETY: a record is whole numbers of 8 bytes, one behind the other.
    unsafe { &mut *(record as *mut OpenChunk).cast() }
}
