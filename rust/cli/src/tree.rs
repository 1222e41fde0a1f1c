//! A scene for the eye: what it holds, in words. Its rows come one after the other, and no table is held.

use crate::commands::shown;
use crate::run::Run;
use kelompuris::{rows, Brush, KeyList, Mesh, Node, NodeKind, Row, Texture};

/// The nodes of an accepted file as a tree, a node two spaces further in than its
/// parent; then the names of textures and brushes.
pub fn print(file: &[u8], run: &mut Run) {
    // Meshes and key lists stand in the order of their nodes.
    let mut meshes = rows(file, 4);
    let mut lists = rows(file, 9).peekable();
    // The nodes above, the root first.
    let mut above: Vec<usize> = Vec::new();
    for (number, row) in rows(file, 3).enumerate() {
        let node = Node::over(&row[..Node::WORDS], file);
        let parent = node.parent();
        while above.last().copied() != parent {
            above.pop();
        }
        let level = above.len();
        above.push(number);
        let mut parts = Vec::new();
        match node.kind() {
            NodeKind::Mesh(_) => {
                let row = meshes.next().expect("a mesh of the scene");
                let mesh = Mesh::over(&row[..Mesh::WORDS], file);
                let (vertices, sets) = (mesh.vertices().len(), mesh.triangle_sets().len());
                parts.push(format!(
                    "mesh of {}",
                    several(vertices, "vertex", "vertices")
                ));
                parts.push(several(sets, "triangle set", "triangle sets"));
            }
            NodeKind::Bone { weights } => {
                parts.push(format!(
                    "bone of {}",
                    several(weights.len(), "weight", "weights")
                ));
            }
            NodeKind::Pivot => {}
        }
        let mut keys = 0;
        while let Some(row) = lists.next_if(|row| key_list(row).node() == number) {
            keys += key_list(&row).keys().len();
        }
        if keys > 0 {
            parts.push(several(keys, "key", "keys"));
        }
        if let Some(anim) = node.anim() {
            parts.push(format!("ANIM of {} frames, {} fps", anim.frames, anim.fps));
        }
        let words = match parts.is_empty() {
            true => String::new(),
            false => format!(": {}", parts.join(", ")),
        };
        run.line(format!(
            "{:1$}{2}{words}",
            "",
            2 * level,
            shown(node.name())
        ));
    }
    for row in rows(file, 1) {
        let texture = Texture::over(&row[..Texture::WORDS], file);
        run.line(format!("texture {}", shown(texture.name())));
    }
    for row in rows(file, 2) {
        let brush = Brush::over(&row[..Brush::WORDS], file);
        run.line(format!("brush {}", shown(brush.name())));
    }
}

fn key_list(row: &[u32]) -> KeyList<'_> {
    KeyList::over(&row[..KeyList::WORDS], &[])
}

fn several(count: usize, one: &str, many: &str) -> String {
    format!("{count} {}", if count == 1 { one } else { many })
}
