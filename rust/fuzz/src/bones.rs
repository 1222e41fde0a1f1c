//! A skeleton file as bones, of which one is given another parent. Child lists and parents
//! tell the same afterwards as before, but parents may never end.

use scenes::cal3d::NONE;
use scenes::Rng;

struct Bone<'a> {
    /// The bytes up to the parent, and from there to the number of children.
    start: &'a [u8],
    parent: u32,
    middle: &'a [u8],
    children: Vec<u32>,
}

/// The first bytes of what is left.
fn take<'a>(rest: &mut &'a [u8], size: usize) -> Option<&'a [u8]> {
    let (taken, behind) = rest.split_at_checked(size)?;
    *rest = behind;
    Some(taken)
}

fn word(rest: &mut &[u8]) -> Option<u32> {
    let (word, behind) = rest.split_first_chunk()?;
    *rest = behind;
    Some(u32::from_le_bytes(*word))
}

/// The bones behind the header; none where one is cut.
fn bones(mut rest: &[u8]) -> Option<Vec<Bone<'_>>> {
    let mut bones = Vec::new();
    while !rest.is_empty() {
        let length = word(&mut { rest })? as usize;
        let start = take(&mut rest, 4 + length + 56)?;
        let parent = word(&mut rest)?;
        let middle = take(&mut rest, 16)?;
        let count = word(&mut rest)?;
        let children = (0..count).map(|_| word(&mut rest)).collect::<Option<_>>()?;
        bones.push(Bone {
            start,
            parent,
            middle,
            children,
        });
    }
    Some(bones)
}

/// The file with a bone below another, below itself, or below none; none where the bytes
/// are no skeleton.
pub fn moved(mut file: &[u8], rng: &mut Rng) -> Option<Vec<u8>> {
    let head = take(&mut file, 24)?;
    let mut bones = bones(file)?;
    if !head.starts_with(b"CSF\0") || bones.is_empty() {
        return None;
    }
    let (bone, parent) = (rng.below(bones.len()), rng.between(0, bones.len()));
    for other in &mut bones {
        other.children.retain(|&child| child != bone as u32);
    }
    bones[bone].parent = NONE;
    if let Some(above) = bones.get_mut(parent) {
        let at = rng.between(0, above.children.len());
        above.children.insert(at, bone as u32);
        bones[bone].parent = parent as u32;
    }
    let mut bytes = head.to_vec();
    for bone in bones {
        bytes.extend(bone.start);
        bytes.extend(bone.parent.to_le_bytes());
        bytes.extend(bone.middle);
        bytes.extend((bone.children.len() as u32).to_le_bytes());
        bytes.extend(bone.children.iter().flat_map(|child| child.to_le_bytes()));
    }
    Some(bytes)
}
