//! Refusals: a number and a place (table of "Refusal numbers").

/// 1: the file size is outside its limits.
pub const FILE_SIZE: u32 = 1;
/// 2: the first tag is not BB3D, or its length is not the file size minus 8.
pub const FIRST_HEADER: u32 = 2;
/// 3: a chunk header is cut, or its length passes the enclosing chunk.
pub const HEADER: u32 = 3;
/// 4: a known tag is not allowed here, or once too often, or out of order.
pub const TAG: u32 = 4;
/// 5: fixed data or an item runs past its chunk, or an ANIM length is not 12.
pub const CUT: u32 = 5;
/// 6: a number is outside its range.
pub const RANGE: u32 = 6;
/// 7: an id names nothing.
pub const ID: u32 = 7;
/// 8: a MESH ends without VRTS or TRIS.
pub const NO_MESH_DATA: u32 = 8;
/// 9: a node is nested 17 deep.
pub const DEPTH: u32 = 9;
/// 10: a table has more rows than the limit.
pub const ROWS: u32 = 10;
/// 11: a lent table or the output is too short.
pub const SHORT: u32 = 11;
/// 12: no accepted file has these tables.
pub const UNSOUND: u32 = 12;
/// 13: a number of a slip is wrong, or the slip is cut or too long.
pub const SLIP: u32 = 13;

/// Why a call was refused, and where.
#[derive(Clone, Copy, Debug, PartialEq, Eq)]
pub struct Refusal {
    pub number: u32,
    pub place: usize,
}

/// The refusal of this number at this place.
pub fn refuse<T>(number: u32, place: usize) -> Result<T, Refusal> {
    Err(Refusal { number, place })
}
