//! The words lent to the writer, with the rows by their columns.

use crate::limits::*;

/// Tables whose counted rows lie inside their slices, with the other words.
pub struct Lent<'a> {
    tables: [&'a [u32]; 10],
    counts: [usize; 10],
    pub version: u32,
    pub n_texs: u32,
    pub names: &'a [u8],
}

impl<'a> Lent<'a> {
    /// None if a count is beyond the table's limit or its lent slice.
    pub fn new(
        tables: [&'a [u32]; 10],
        counts: &[u32; 10],
        version: u32,
        n_texs: u32,
        names: &'a [u8],
    ) -> Option<Lent<'a>> {
        let counts = counts.map(|count| count as usize);
        for table in 0..10 {
            if counts[table] > MOST_ROWS || counts[table] * ROW_WORDS[table] > tables[table].len() {
                return None;
            }
        }
        Some(Lent {
            tables,
            counts,
            version,
            n_texs,
            names,
        })
    }

    /// Counted rows of a table.
    pub fn count(&self, table: usize) -> usize {
        self.counts[table]
    }

    /// A counted row of a table.
    pub fn row(&self, table: usize, number: usize) -> &'a [u32] {
        let start = number * ROW_WORDS[table];
        &self.tables[table][start..start + ROW_WORDS[table]]
    }

    /// The counted rows of a table.
    pub fn rows(&self, table: usize) -> impl Iterator<Item = &'a [u32]> + '_ {
        (0..self.counts[table]).map(move |number| self.row(table, number))
    }

    /// The bytes of the name that a texture, brush or node row begins with.
    /// None if they pass the end of the lent bytes.
    pub fn name(&self, row: &[u32]) -> Option<&'a [u8]> {
        let end = u64::from(row[0]) + u64::from(row[1]);
        if end > self.names.len() as u64 {
            return None;
        }
        Some(&self.names[row[0] as usize..end as usize])
    }

    pub fn node(&self, number: usize) -> NodeRow<'a> {
        let row = self.row(NODES, number);
        NodeRow {
            row,
            parent: row[2],
            floats: &row[3..13],
            kind: row[13],
            first: row[14],
            count: row[15],
            anim: row[16],
            anim_values: &row[17..20],
            branch: row[20],
        }
    }

    pub fn mesh(&self, number: usize) -> MeshRow {
        let row = self.row(MESHES, number);
        MeshRow {
            node: row[0],
            brush: row[1],
            flags: row[2],
            sets: row[3],
            set_size: row[4],
            first_vertex: row[5],
            vertices: row[6],
            first_set: row[7],
            triangle_sets: row[8],
        }
    }

    pub fn triangle_set(&self, number: usize) -> TriangleSetRow {
        let row = self.row(TRIANGLE_SETS, number);
        TriangleSetRow {
            mesh: row[0],
            brush: row[1],
            first: row[2],
            count: row[3],
        }
    }

    pub fn key_list(&self, number: usize) -> KeyListRow {
        let row = self.row(KEY_LISTS, number);
        KeyListRow {
            node: row[0],
            flags: row[1],
            first: row[2],
            count: row[3],
        }
    }
}

/// Table 3.
pub struct NodeRow<'a> {
    /// The whole row; it begins with the name.
    pub row: &'a [u32],
    pub parent: u32,
    pub floats: &'a [u32],
    pub kind: u32,
    pub first: u32,
    pub count: u32,
    pub anim: u32,
    pub anim_values: &'a [u32],
    pub branch: u32,
}

/// Table 4.
pub struct MeshRow {
    pub node: u32,
    pub brush: u32,
    pub flags: u32,
    pub sets: u32,
    pub set_size: u32,
    pub first_vertex: u32,
    pub vertices: u32,
    pub first_set: u32,
    pub triangle_sets: u32,
}

/// Table 6.
pub struct TriangleSetRow {
    pub mesh: u32,
    pub brush: u32,
    pub first: u32,
    pub count: u32,
}

/// Table 9.
pub struct KeyListRow {
    pub node: u32,
    pub flags: u32,
    pub first: u32,
    pub count: u32,
}
