//! A scene mended, and what was mended in a planner's words.

use crate::answer::{about, Stop};
use crate::explain::brushes;
use crate::output::keep;
use crate::run::Run;
use crate::text::decimal;
use kelompuris::{mend_to_vec, Mend, MendKind};
use std::path::Path;

/// What was mended; an id is one of a texture or of a brush.
fn in_words(mend: &Mend, texture: bool) -> String {
    let number = |bytes: &[u8]| bytes.try_into().map_or(0, u32::from_le_bytes);
    let (given, mended) = (number(mend.given), number(mend.mended));
    let words: Vec<u32> = mend.given.chunks(4).map(number).collect();
    let ids: Vec<String> = words.iter().map(|&id| (id as i32).to_string()).collect();
    let what = match (mend.kind, &words[..]) {
        (MendKind::Length, _) if given == mended => {
            format!("length of the scene (BB3D), {given}, is right once the bytes behind it are taken out")
        }
        (MendKind::Length, _) => {
            format!("length of the scene (BB3D) is not the file's, {given} -> {mended}")
        }
        (MendKind::Id, _) => {
            let kind = if texture { "texture" } else { "brush" };
            format!("{kind} that is not there, {} -> none", given as i32)
        }
        (MendKind::Item, [vertex, weight]) => {
            let weight = decimal(f32::from_bits(*weight));
            format!(
                "weight {weight} of vertex {}, which is not there, taken out",
                *vertex as i32
            )
        }
        (MendKind::Item, _) => {
            let ids = ids.join(" ");
            format!("triangle {ids} with a vertex that is not there, taken out")
        }
        (MendKind::Spare, _) => match mend.given.len() {
            1 => "1 spare byte taken out".to_string(),
            size => format!("{size} spare bytes taken out"),
        },
    };
    format!("byte {}: {what}", mend.place)
}

/// A copy of a file whose faults are mended, and a line for each.
pub fn mend(
    path: &Path,
    target: &Path,
    report_target: Option<&Path>,
    force: bool,
    run: &mut Run,
) -> Result<(), Stop> {
    let file = run.load(path)?;
    // Refused is trouble here: 1 says that the file is mended.
    let mending = mend_to_vec(&file).map_err(|refusal| Stop::Failed(about(path, refusal)))?;
    run.keep_inputs(target)?;
    if let Some(report_target) = report_target {
        keep(target, report_target)?;
        run.keep_inputs(report_target)?;
    }
    run.put_file(target, mending.file(), force)?;
    if let Some(report_target) = report_target {
        run.put_file(report_target, mending.report(), force)?;
    }
    let textures = brushes(&file);
    for mend in mending.mends() {
        run.line(in_words(&mend, textures.contains(&(mend.place as usize))));
    }
    match mending.mends().count() {
        0 => Ok(()),
        1 => Err(Stop::Found(about(path, "1 fault mended"))),
        count => Err(Stop::Found(about(path, format!("{count} faults mended")))),
    }
}
