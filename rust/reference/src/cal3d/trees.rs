//! Whether child lists and parents tell the same trees.

use super::skeleton::Bone;
use crate::limits::NONE;

/// The lowest bone that its parent does not list exactly once, that a bone not
/// its parent lists, or whose parents never end.
pub fn first_wrong(bones: &[Bone]) -> Option<usize> {
    let mut by_parent = vec![0_u32; bones.len()];
    let mut by_other = vec![false; bones.len()];
    for (lister, bone) in bones.iter().enumerate() {
        for &child in &bone.children {
            match bones[child as usize].parent == lister as u32 {
                true => by_parent[child as usize] += 1,
                false => by_other[child as usize] = true,
            }
        }
    }
    let endless = endless(bones);
    (0..bones.len()).find(|&bone| {
        let listed = match bones[bone].parent {
            NONE => true,
            _ => by_parent[bone] == 1,
        };
        !listed || by_other[bone] || endless[bone]
    })
}

/// The bones whose parents never end: those that remain when, again and again,
/// bones without a remaining parent are taken away.
fn endless(bones: &[Bone]) -> Vec<bool> {
    let mut below = vec![Vec::new(); bones.len()];
    let mut ends: Vec<usize> = Vec::new();
    for (bone, stored) in bones.iter().enumerate() {
        match stored.parent {
            NONE => ends.push(bone),
            parent => below[parent as usize].push(bone),
        }
    }
    let mut endless = vec![true; bones.len()];
    while let Some(bone) = ends.pop() {
        endless[bone] = false;
        ends.extend(&below[bone]);
    }
    endless
}
