//! The limits of "Numbers and their ranges" and the row sizes of "The ten tables".

/// Fewest bytes of a file.
pub const SMALLEST_FILE: usize = 12;
/// Most bytes of a file.
pub const LARGEST_FILE: usize = 16_777_216;
/// Most bytes of input that the lister takes.
pub const LARGEST_LISTED: usize = 65_536;
/// Most rows of a table.
pub const MOST_ROWS: usize = 2_097_151;
/// Deepest node, the root being 1.
pub const DEEPEST_NODE: usize = 16;

/// Highest version; the lowest is 0, as for all numbers below.
pub const HIGHEST_VERSION: u32 = 99;
/// Highest n_texs, and the texture slots of a brush row.
pub const MOST_SLOTS: u32 = 8;
/// Highest VRTS flags.
pub const HIGHEST_VERTEX_FLAGS: u32 = 3;
/// Most sets of texture coordinates.
pub const MOST_SETS: u32 = 8;
/// Most coordinates of a set.
pub const LARGEST_SET: u32 = 4;
/// Highest KEYS flags.
pub const HIGHEST_KEY_FLAGS: u32 = 7;

/// The word that stands for no row: also the bits of the brush or texture id -1.
pub const NONE: u32 = 0xFFFF_FFFF;

/// Places of the tables in the array of ten; the table number is one more.
pub const TEXTURES: usize = 0;
pub const BRUSHES: usize = 1;
pub const NODES: usize = 2;
pub const MESHES: usize = 3;
pub const VERTICES: usize = 4;
pub const TRIANGLE_SETS: usize = 5;
pub const TRIANGLES: usize = 6;
pub const WEIGHTS: usize = 7;
pub const KEY_LISTS: usize = 8;
pub const KEYS: usize = 9;

/// Words of a row of each table.
pub const ROW_WORDS: [usize; 10] = [9, 17, 21, 9, 42, 4, 3, 2, 4, 11];

/// Node kinds.
pub const PIVOT: u32 = 0;
pub const MESH: u32 = 1;
pub const BONE: u32 = 2;
