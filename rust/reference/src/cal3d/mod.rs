//! A plain reader of cal3d's binary skeletons (CSF version 1300) and meshes
//! (CMF version 700), written from the format's document and paper 02 alone,
//! for comparison with other code. It uses the heap freely and fills lent
//! slices only after all checks.

mod items;
mod mesh;
mod skeleton;
mod trees;

pub use mesh::{judge as judge_mesh, read as read_mesh, MeshAnswer};
pub use skeleton::{judge as judge_skeleton, read as read_skeleton, SkeletonAnswer};

use crate::refusal::{refuse, Refusal, ROWS, SHORT};

/// Most rows of a table of a skeleton or a mesh.
const MOST_ROWS: usize = 16_383;

/// 2: the magic token is another.
const MAGIC: u32 = 2;
/// 16: child lists and parents do not tell the same trees.
const TREES: u32 = 16;

/// One row of a table.
type Row = Vec<u32>;

/// 10 at the lowest table with too many rows.
fn limit_rows(tables: &[Vec<Row>]) -> Result<(), Refusal> {
    match tables.iter().position(|rows| rows.len() > MOST_ROWS) {
        Some(table) => refuse(ROWS, table + 1),
        None => Ok(()),
    }
}

/// 11 at the lowest table without room for its rows.
fn check_room(tables: &[Vec<Row>], widths: &[usize], room: &[usize]) -> Result<(), Refusal> {
    for (table, rows) in tables.iter().enumerate() {
        if room[table] < rows.len() * widths[table] {
            return refuse(SHORT, table + 1);
        }
    }
    Ok(())
}

/// Stores the rows of a table from its first word on.
fn store(rows: &[Row], out: &mut [u32]) {
    for (place, word) in rows.iter().flatten().enumerate() {
        out[place] = *word;
    }
}
