//! File to scene, with refusals 1 to 9 in reading order.

pub mod materials;
pub mod mesh;
pub mod node;

use crate::chunks::chunk_at;
use crate::limits::{HIGHEST_VERSION, LARGEST_FILE, SMALLEST_FILE};
use crate::numbers::{ranged, word};
use crate::refusal::{refuse, Refusal, FILE_SIZE, FIRST_HEADER, TAG};
use crate::scene::Scene;
use crate::Mode;

/// The scene of a file without faults 1 to 9, else the first fault.
pub fn parse(mode: Mode, file: &[u8]) -> Result<Scene, Refusal> {
    check_size(file)?;
    check_first_tag(file)?;
    check_first_length(file)?;
    bb3d(mode, file)
}

/// 1 at 0: file size outside its limits.
pub fn check_size(file: &[u8]) -> Result<(), Refusal> {
    if file.len() < SMALLEST_FILE || file.len() > LARGEST_FILE {
        return refuse(FILE_SIZE, 0);
    }
    Ok(())
}

/// 2 at 0: the first tag is not BB3D.
pub fn check_first_tag(file: &[u8]) -> Result<(), Refusal> {
    if &file[0..4] != b"BB3D" {
        return refuse(FIRST_HEADER, 0);
    }
    Ok(())
}

/// 2 at 4: its length is not the file size minus 8.
fn check_first_length(file: &[u8]) -> Result<(), Refusal> {
    if word(file, 4) as usize != file.len() - 8 {
        return refuse(FIRST_HEADER, 4);
    }
    Ok(())
}

/// The inside of BB3D: version, then at most one each of TEXS, BRUS, NODE, in
/// that order. A file of 12 bytes or more holds the version.
fn bb3d(mode: Mode, file: &[u8]) -> Result<Scene, Refusal> {
    let mut scene = Scene {
        version: ranged(file, 8, HIGHEST_VERSION)?,
        n_texs: 0,
        textures: Vec::new(),
        brushes: Vec::new(),
        root: None,
    };
    // Last known chunk: 0 none, 1 TEXS, 2 BRUS, 3 NODE.
    let mut last = 0;
    let mut at = 12;
    while let Some(chunk) = chunk_at(file, at, file.len())? {
        at = chunk.end;
        match &chunk.tag {
            b"TEXS" if last < 1 => {
                scene.textures = materials::texs(file, &chunk)?;
                last = 1;
            }
            b"BRUS" if last < 2 => {
                let (n_texs, brushes) = materials::brus(mode, file, &chunk, scene.textures.len())?;
                scene.n_texs = n_texs;
                scene.brushes = brushes;
                last = 2;
            }
            b"NODE" if last < 3 => {
                scene.root = Some(node::root(mode, file, &chunk, scene.brushes.len())?);
                last = 3;
            }
            _ if chunk.is_known() => return refuse(TAG, chunk.header),
            _ => {}
        }
    }
    Ok(scene)
}
