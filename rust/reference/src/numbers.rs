//! Numbers, ids and texts of the file, with refusals 5, 6 and 7.

use crate::limits::NONE;
use crate::refusal::{refuse, Refusal, CUT, ID, RANGE};
use crate::scene::{Items, Name};
use crate::Mode;

/// The four bytes at `place`, little endian.
pub fn word(file: &[u8], place: usize) -> u32 {
    u32::from_le_bytes([
        file[place],
        file[place + 1],
        file[place + 2],
        file[place + 3],
    ])
}

/// The `N` words from `place` on.
pub fn words<const N: usize>(file: &[u8], place: usize) -> [u32; N] {
    std::array::from_fn(|i| word(file, place + 4 * i))
}

/// A number from 0 to `highest`, else 6 at the number.
pub fn ranged(file: &[u8], place: usize, highest: u32) -> Result<u32, Refusal> {
    let number = word(file, place) as i32;
    if number < 0 || number as u32 > highest {
        return refuse(RANGE, place);
    }
    Ok(number as u32)
}

/// An id from 0 to `count` minus 1, else 7 at the number.
pub fn id(file: &[u8], place: usize, count: usize) -> Result<u32, Refusal> {
    let number = word(file, place) as i32;
    if number < 0 || number as usize >= count {
        return refuse(ID, place);
    }
    Ok(number as u32)
}

/// An id that may be absent, as those of brushes and textures may: -1, or an
/// id from 0 to `count` minus 1.
pub fn id_or_none(file: &[u8], place: usize, count: usize) -> Result<u32, Refusal> {
    if word(file, place) as i32 == -1 {
        return Ok(NONE);
    }
    id(file, place, count)
}

/// Red, green, blue and alpha from `place` on: in strict mode 6 at the first
/// that is not a number or lies outside 0 to 1.
pub fn colours(mode: Mode, file: &[u8], place: usize) -> Result<(), Refusal> {
    for at in [place, place + 4, place + 8, place + 12] {
        if mode == Mode::Strict && !colour(word(file, at)) {
            return refuse(RANGE, at);
        }
    }
    Ok(())
}

/// As bits, 0 to 0x3F800000 (1.0) and 0x80000000 (minus zero) pass and nothing
/// else does.
pub fn colour(bits: u32) -> bool {
    matches!(bits, 0..=0x3F80_0000 | 0x8000_0000)
}

/// 5 at `start` unless `size` bytes from `start` on end by `end`.
pub fn fits(start: usize, size: usize, end: usize) -> Result<(), Refusal> {
    if end - start < size {
        return refuse(CUT, start);
    }
    Ok(())
}

/// A text and then `size` bytes, all before `end`, else 5 at the start of the
/// text. Gives the name and the place after its zero byte.
pub fn text_then(
    file: &[u8],
    start: usize,
    size: usize,
    end: usize,
) -> Result<(Name, usize), Refusal> {
    let Some(length) = file[start..end].iter().position(|&byte| byte == 0) else {
        return refuse(CUT, start);
    };
    fits(start, length + 1 + size, end)?;
    let name = Name {
        place: start,
        length,
    };
    Ok((name, start + length + 1))
}

/// Items of `size` bytes from `start` to `end`: each must fit (5 at its
/// start), then `check` judges its numbers.
pub fn items(
    start: usize,
    end: usize,
    size: usize,
    check: impl Fn(usize) -> Result<(), Refusal>,
) -> Result<Items, Refusal> {
    let mut items = Items {
        place: start,
        size,
        count: 0,
    };
    let mut at = start;
    while at < end {
        fits(at, size, end)?;
        check(at)?;
        at += size;
        items.count += 1;
    }
    Ok(items)
}

/// For items whose numbers have no limits.
pub fn any_numbers(_item: usize) -> Result<(), Refusal> {
    Ok(())
}
