//! Which words of a vertex or key row an item fills, in file order. The other
//! words of the row are cells for absent parts and hold 0.

/// Words of a vertex row: 3 position; 3 normal if flag 1; 4 colour if flag 2;
/// coordinate c of set s at word 10 + 4s + c.
pub fn vertex_cells(flags: u32, sets: u32, set_size: u32) -> Vec<usize> {
    let mut cells: Vec<usize> = (0..3).collect();
    if flags & 1 != 0 {
        cells.extend(3..6);
    }
    if flags & 2 != 0 {
        cells.extend(6..10);
    }
    for set in 0..sets as usize {
        for coordinate in 0..set_size as usize {
            cells.push(10 + 4 * set + coordinate);
        }
    }
    cells
}

/// Words of a key row: frame; 3 position if flag 1; 3 scale if flag 2;
/// 4 rotation if flag 4.
pub fn key_cells(flags: u32) -> Vec<usize> {
    let mut cells = vec![0];
    if flags & 1 != 0 {
        cells.extend(1..4);
    }
    if flags & 2 != 0 {
        cells.extend(4..7);
    }
    if flags & 4 != 0 {
        cells.extend(7..11);
    }
    cells
}
