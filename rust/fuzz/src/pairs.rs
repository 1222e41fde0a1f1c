//! The two files of an input for the comparison.

use crate::chunks::of_file;
use crate::LONGEST;
use scenes::change::{other_word, tree_change};
use scenes::private::private_change;
use scenes::Rng;

/// Two files one behind the other, told apart by the length of the first one's BB3D; none
/// where no BB3D begins behind that.
pub fn split(files: &[u8]) -> Option<(&[u8], &[u8])> {
    let length = u32::from_le_bytes(*files.get(4..)?.first_chunk()?);
    let (first, second) = files.split_at_checked(length as usize + 8)?;
    second.starts_with(b"BB3D").then_some((first, second))
}

/// A file changed by a program: changes of four bytes each, which say how, where and by
/// what; what is left of the last is not looked at. A file that grew past half the longest
/// input is not changed further, since a change may double it.
pub fn changed(file: &[u8], program: &[u8]) -> Vec<u8> {
    let mut file = file.to_vec();
    for change in program.chunks_exact(4) {
        if file.len() > LONGEST / 2 {
            break;
        }
        let place = usize::from(u16::from_le_bytes([change[1], change[2]]));
        change_at(&mut file, change[0], place, change[3]);
    }
    file
}

fn change_at(file: &mut Vec<u8>, how: u8, place: usize, by: u8) {
    let mut rng = Rng::new(place as u64 * 256 + u64::from(by));
    let Some(at) = place.checked_rem(file.len()) else {
        return;
    };
    match how % 6 {
        0 => file[at] ^= by,
        1 => {
            if let Some(word) = file[at..].first_chunk_mut::<4>() {
                *word = other_word(u32::from_le_bytes(*word), &mut rng).to_le_bytes();
            }
        }
        2 => file.truncate(at),
        how => {
            let Some(mut tree) = of_file(file) else {
                return;
            };
            *file = match how {
                3 => private_change(&tree, &mut rng),
                4 => tree_change(&tree, &mut rng).bytes(),
                _ => {
                    let mut nodes = tree.spots();
                    nodes.retain(|spot| &spot.tag == b"NODE");
                    if let Some(node) = place.checked_rem(nodes.len()) {
                        // Its name, which the zero byte ends.
                        let data = &mut tree.at_mut(&nodes[node].path).data;
                        let length = data.iter().take_while(|&&byte| byte != 0).count();
                        data.splice(..length, vec![by; usize::from(by % 4)]);
                    }
                    tree.bytes()
                }
            }
        }
    }
}
