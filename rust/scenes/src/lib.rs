//! Valid and damaged B3D files and tables for comparing readers and writers.
//! All is made from a seed; no reader is used.
//!
//! - `make`: random valid files with the words that a reader must give.
//! - `damage`: files with one fault, and the refusal that it must bring.
//! - `colour`: colours on and near the limits of the strict mode.
//! - `change`: files changed without regard to the outcome.
//! - `labels`: files for the tray label, with labels made by hand.
//! - `rows`: files with a given number of rows in one table.
//! - `nesting`: known chunks in any order inside one chunk.
//! - `pairs`: two files that differ in a few cells, with the list of these.
//! - `mendable`: files with faults that can be mended, with the mended files and the
//!   reports.
//! - `groups`: numbers in groups of seven bits.
//! - `private`: files that differ only in what a clearer drops.
//! - `words`: damaged tables for a writer.
//! - `worked`: the worked files and cases of paper 01.
//! - `rebuild`: a file from tables, as far as that goes.
//! - `cal3d`: skeletons and meshes of cal3d, valid and with one fault.

pub mod cal3d;
pub mod change;
pub mod chunk;
pub mod colour;
pub mod damage;
pub mod groups;
pub mod labels;
pub mod make;
pub mod mendable;
pub mod nesting;
pub mod pairs;
pub mod private;
pub mod rebuild;
pub mod rng;
pub mod rows;
pub mod sheet;
pub mod words;
pub mod worked;

pub use chunk::Chunk;
pub use damage::Damaged;
pub use make::{scene, Profile, Scene};
pub use rng::Rng;
pub use sheet::Sheet;
