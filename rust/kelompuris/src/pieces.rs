//! A file in pieces: judged as it comes, and never held.

use crate::Answer;

/// The records that are enough for every file.
pub const RECORDS: usize = 19;

/// A chunk that is open, around the innermost one. Each number is described in
/// `include/kelompuris.h`.
#[repr(C)]
#[derive(Clone, Copy, Debug, Default, PartialEq, Eq)]
pub struct OpenChunk {
    pub tag: usize,
    pub head: usize,
    pub end: usize,
    pub turn: usize,
    pub spent: usize,
    pub level: usize,
    pub first: usize,
    pub second: usize,
    pub third: usize,
    pub count: usize,
    pub told: usize,
}

/// What is kept between two calls beside the row. Each number is described in
/// `include/kelompuris.h`.
#[repr(C)]
#[derive(Clone, Copy, Debug, Default, PartialEq, Eq)]
pub struct State {
    pub kind: u32,
    pub number: u32,
    pub size: usize,
    pub worth: usize,
    pub letters: usize,
    pub length: usize,
    pub shut: usize,
    pub depth: usize,
    pub at: usize,
    pub fixed: usize,
    pub start: usize,
    pub index: usize,
    pub came: usize,
    pub value: usize,
    pub first: usize,
    pub second: usize,
    pub third: usize,
    pub inner: OpenChunk,
    pub version: usize,
    pub slots: usize,
    pub textures: usize,
    pub brushes: usize,
    pub own: usize,
    pub told: usize,
    pub below: usize,
    pub nodes: usize,
    pub meshes: usize,
    pub vertices: usize,
    pub sets: usize,
    pub triangles: usize,
    pub weights: usize,
    pub lists: usize,
    pub keys: usize,
}

/// What a piece is answered, and the state for the next call.
#[repr(C)]
#[derive(Clone, Copy, Debug, Default, PartialEq, Eq)]
pub struct Fed {
    pub number: u32,
    pub place: u32,
    pub state: State,
}

/// What the close is answered, and the state for the next call.
#[repr(C)]
#[derive(Clone, Copy, Debug, Default, PartialEq, Eq)]
pub struct Closed {
    pub answer: Answer,
    pub state: State,
}

#[rustfmt::skip]
extern "C" {
    fn kelompuris_b3d_pieces_start() -> State;

    fn kelompuris_b3d_pieces_piece(
        state: State, row: *mut OpenChunk, row_len: usize, bytes: *const u8, bytes_len: usize,
    ) -> Fed;

    fn kelompuris_b3d_pieces_close(
        state: State, row: *const OpenChunk, row_len: usize,
    ) -> Closed;
}

/// A fresh state.
#[must_use]
pub fn start() -> State {
    // SAFETY: nothing is lent.
    unsafe { kelompuris_b3d_pieces_start() }
}

/// The next bytes of a file: refusals 11 at 19 for fewer records, then 15 at 0
/// after the close, or for a state and a row that no calls lead to. A refused
/// call gives back the state and changes no record.
#[must_use = "the next call needs the state"]
pub fn piece(state: State, row: &mut [OpenChunk], bytes: &[u8]) -> Fed {
    let len = row.len();
    // SAFETY: each pointer holds for its length, and the borrows are apart.
    unsafe {
        kelompuris_b3d_pieces_piece(state, row.as_mut_ptr(), len, bytes.as_ptr(), bytes.len())
    }
}

/// No byte is left: what the judge says of all bytes joined, in strict mode, or
/// the same refusals.
#[must_use = "an answer may be a refusal"]
pub fn close(state: State, row: &[OpenChunk]) -> Closed {
    // SAFETY: the pointer holds for the length, and nothing is written.
    unsafe { kelompuris_b3d_pieces_close(state, row.as_ptr(), row.len()) }
}

/// A file that is handed over in pieces, with state and row.
///
/// ```
/// use kelompuris::pieces::Pieces;
///
/// # fn main() -> Result<(), Box<dyn std::error::Error>> {
/// let mut pieces = Pieces::default();
/// for piece in std::fs::read("../../samples/hall.b3d")?.chunks(7) {
///     pieces.piece(piece);
/// }
/// assert_eq!(pieces.close().result()?.counts[2], 1);
/// # Ok(())
/// # }
/// ```
#[derive(Clone, Debug)]
pub struct Pieces {
    state: State,
    row: [OpenChunk; RECORDS],
}

impl Default for Pieces {
    fn default() -> Pieces {
        Pieces {
            state: start(),
            row: [OpenChunk::default(); RECORDS],
        }
    }
}

impl Pieces {
    /// The next bytes.
    pub fn piece(&mut self, bytes: &[u8]) {
        self.state = piece(self.state, &mut self.row, bytes).state;
    }

    /// What the judge says of all bytes joined, in strict mode.
    #[must_use = "an answer may be a refusal"]
    pub fn close(self) -> Answer {
        close(self.state, &self.row).answer
    }
}
