//! Slips (paper 02, E1): version, n_texs and ten row counts, one after the
//! other, each in groups of seven bits. A number's bytes so far are wrong
//! exactly if no number in its range has bytes that begin so: all that are
//! right stand in a list.

use crate::groups::{grouped, groups};
use crate::limits::{HIGHEST_VERSION, MOST_ROWS, MOST_SLOTS};
use crate::refusal::{refuse, Refusal, SLIP};
use std::collections::HashMap;
use std::sync::OnceLock;

/// The highest value of the number at a position.
fn highest(position: usize) -> u32 {
    match position {
        0 => HIGHEST_VERSION,
        1 => MOST_SLOTS,
        _ => MOST_ROWS as u32,
    }
}

/// What right bytes are: all of a number, or the first of some number.
#[derive(Clone, Copy)]
enum Right {
    All(u32),
    First,
}

/// Bytes as one number that no other bytes have.
fn code(bytes: &[u8]) -> u64 {
    bytes
        .iter()
        .fold(1, |code, &byte| code << 8 | u64::from(byte))
}

/// All bytes that are right for a number up to this, by their codes.
fn right(highest: u32) -> HashMap<u64, Right> {
    let mut list = HashMap::new();
    for number in 0..=highest {
        let bytes = groups(number);
        for end in 1..bytes.len() {
            list.insert(code(&bytes[..end]), Right::First);
        }
        list.insert(code(&bytes), Right::All(number));
    }
    list
}

/// The list for the number at a position, made once.
fn right_at(position: usize) -> &'static HashMap<u64, Right> {
    static LISTS: [OnceLock<HashMap<u64, Right>>; 3] = [const { OnceLock::new() }; 3];
    let kind = position.min(2);
    LISTS[kind].get_or_init(|| right(highest(kind)))
}

/// The numbers of a slip.
pub fn read(slip: &[u8]) -> Result<[u32; 12], Refusal> {
    let mut numbers = [0; 12];
    let mut start = 0;
    for (position, number) in numbers.iter_mut().enumerate() {
        let list = right_at(position);
        let mut end = start;
        *number = loop {
            if end == slip.len() {
                return refuse(SLIP, slip.len());
            }
            end += 1;
            match list.get(&code(&slip[start..end])) {
                Some(Right::All(number)) => break *number,
                Some(Right::First) => {}
                None => return refuse(SLIP, start),
            }
        };
        start = end;
    }
    match start < slip.len() {
        true => refuse(SLIP, start),
        false => Ok(numbers),
    }
}

/// The slip of twelve numbers.
pub fn write(numbers: &[u32; 12]) -> Result<Vec<u8>, Refusal> {
    let out = |&position: &usize| numbers[position] > highest(position);
    if let Some(position) = (0..12).find(out) {
        return refuse(SLIP, position);
    }
    Ok(grouped(numbers))
}
