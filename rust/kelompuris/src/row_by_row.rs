//! A table row by row: no table is held.

/// The words of the widest row, a vertex: they are enough for a row of every table.
pub const WORDS: usize = 42;

/// What is kept between two calls. Each number is described in
/// `include/kelompuris.h`.
#[repr(C)]
#[derive(Clone, Copy, Debug, Default, PartialEq, Eq)]
pub struct State {
    pub table: u32,
    pub item_flags: u32,
    pub item_sets: u32,
    pub item_size: u32,
    pub item_words: usize,
    pub items_at: usize,
    pub items_end: usize,
    pub inner_at: usize,
    pub inner_end: usize,
    pub at: usize,
    pub nodes: usize,
    pub meshes: usize,
    pub vertices: usize,
    pub sets: usize,
    pub triangles: usize,
    pub weights: usize,
    pub lists: usize,
    pub keys: usize,
    pub depth: usize,
    pub open_ends: [usize; 16],
    pub open_nodes: [u32; 16],
}

/// What a call for the next row is answered: `rows` is 1 where one was written, 0
/// where none is left; and the state for the next call.
#[repr(C)]
#[derive(Clone, Copy, Debug, Default, PartialEq, Eq)]
pub struct Given {
    pub number: u32,
    pub place: u32,
    pub rows: u32,
    pub state: State,
}

#[rustfmt::skip]
extern "C" {
    fn kelompuris_b3d_rows_start(file: *const u8, file_len: usize, table: u32) -> State;

    fn kelompuris_b3d_rows_next(
        file: *const u8, file_len: usize, state: State, row: *mut u32, row_len: usize,
    ) -> Given;
}

/// The state before the first row of a table, 1 to 10; all 0 for any other, and
/// for a file of fewer than 12 or more than 16,777,216 bytes.
#[must_use]
pub fn start(file: &[u8], table: u32) -> State {
    // SAFETY: the pointer holds for the length, and nothing is written.
    unsafe { kelompuris_b3d_rows_start(file.as_ptr(), file.len(), table) }
}

/// Writes the next row into the start of a lent one: refusals 11 at 42 for fewer
/// words, then 15 at 0 for a state that cannot be gone on with. Where no row is
/// written, `row` stays, and the state is the one that was given.
#[must_use = "the next call needs the state"]
pub fn next(file: &[u8], state: State, row: &mut [u32]) -> Given {
    let len = row.len();
    // SAFETY: each pointer holds for its length, and the borrows are apart.
    unsafe { kelompuris_b3d_rows_next(file.as_ptr(), file.len(), state, row.as_mut_ptr(), len) }
}

/// The rows of a table, 1 to 10, of a file that is accepted, with no table held;
/// of any other file those that a walk over its chunks finds. Each is the table's
/// words, and 0 behind them. There are none for any other table.
///
/// ```
/// use kelompuris::{rows, Node, Row};
///
/// # fn main() -> Result<(), Box<dyn std::error::Error>> {
/// let file = std::fs::read("../../samples/kitchen.b3d")?;
/// kelompuris::check(kelompuris::Mode::Strict, &file)?;
/// let mut names = Vec::new();
/// for row in rows(&file, 3) {
///     let node = Node::over(&row[..Node::WORDS], &file);
///     names.push(String::from_utf8_lossy(node.name()).into_owned());
/// }
/// assert_eq!(names[..3], ["cupboard", "hinge", "handle"]);
/// # Ok(())
/// # }
/// ```
pub fn rows(file: &[u8], table: u32) -> RowByRow<'_> {
    RowByRow {
        file,
        state: start(file, table),
    }
}

/// The rows of a table, one after the other.
#[derive(Clone, Debug)]
#[must_use = "rows do nothing until they are taken"]
pub struct RowByRow<'a> {
    file: &'a [u8],
    state: State,
}

impl Iterator for RowByRow<'_> {
    type Item = [u32; WORDS];

    fn next(&mut self) -> Option<[u32; WORDS]> {
        let mut row = [0; WORDS];
        let given = next(self.file, self.state, &mut row);
        self.state = given.state;
        (given.rows == 1).then_some(row)
    }
}

impl std::iter::FusedIterator for RowByRow<'_> {}
