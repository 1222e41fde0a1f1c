//! What changed between two scenes, in a planner's words.

use crate::answer::{about, Stop};
use crate::commands::plain;
use crate::json;
use crate::run::Run;
use crate::text::decimal;
use kelompuris::columns::{HEAD, TABLES};
use kelompuris::{compare_to_vec, Cells, Difference, Mode, NodeKind, Scene};
use std::ops::Range;
use std::path::Path;

/// A scene, and whose the rows of its tables are.
struct Owners<'a> {
    scene: &'a Scene<'a>,
    /// The vertices of each mesh, the triangles of each set and the keys of each list.
    vertices: Vec<Range<usize>>,
    triangles: Vec<Range<usize>>,
    keys: Vec<Range<usize>>,
    /// The weights of each node, none if it is no bone.
    weights: Vec<Range<usize>>,
}

/// The number of the range that a row is in; the ranges follow each other.
fn holder(ranges: &[Range<usize>], row: usize) -> Option<usize> {
    let number = ranges.partition_point(|range| range.end <= row);
    ranges.get(number).map(|_| number)
}

impl<'a> Owners<'a> {
    fn of(scene: &'a Scene<'a>) -> Owners<'a> {
        let mut last = 0..0;
        let mut weights = Vec::new();
        for node in scene.nodes() {
            last = match node.kind() {
                NodeKind::Bone { weights } => weights,
                _ => last.end..last.end,
            };
            weights.push(last.clone());
        }
        Owners {
            scene,
            vertices: scene.meshes().map(|mesh| mesh.vertices()).collect(),
            triangles: scene.triangle_sets().map(|set| set.triangles()).collect(),
            keys: scene.key_lists().map(|list| list.keys()).collect(),
            weights,
        }
    }

    fn node(&self, node: usize) -> Option<&'a [u8]> {
        Some(self.scene.nodes().get(node)?.name())
    }

    fn node_of_mesh(&self, mesh: usize) -> Option<&'a [u8]> {
        self.node(self.scene.meshes().get(mesh)?.node())
    }

    fn brush(&self, brush: usize) -> Option<&'a [u8]> {
        Some(self.scene.brushes().get(brush)?.name())
    }

    fn texture(&self, texture: usize) -> Option<&'a [u8]> {
        Some(self.scene.textures().get(texture)?.name())
    }

    /// Whose a row of tables 1 to 10 is, by its name.
    fn owner(&self, table: u32, row: usize) -> Option<&'a [u8]> {
        match table {
            1 => self.texture(row),
            2 => self.brush(row),
            3 => self.node(row),
            4 => self.node_of_mesh(row),
            5 => self.node_of_mesh(holder(&self.vertices, row)?),
            6 => self.node_of_mesh(self.scene.triangle_sets().get(row)?.mesh()),
            7 => {
                let set = holder(&self.triangles, row)?;
                self.node_of_mesh(self.scene.triangle_sets().get(set)?.mesh())
            }
            8 => self.node(holder(&self.weights, row)?),
            9 => self.node(self.scene.key_lists().get(row)?.node()),
            10 => {
                let list = holder(&self.keys, row)?;
                self.node(self.scene.key_lists().get(list)?.node())
            }
            _ => None,
        }
    }

    /// What is to be said of a row beside its table and number.
    fn about(&self, table: u32, row: usize) -> Option<String> {
        let owner = quoted(self.owner(table, row)?);
        Some(match table {
            1..=3 => owner,
            5 => {
                let first = self.vertices[holder(&self.vertices, row)?].start;
                format!("(vertex {} of {owner})", row - first)
            }
            8 => {
                let vertex = self.scene.weights().get(row)?.vertex();
                format!("(of {owner}, vertex {vertex})")
            }
            10 => {
                let frame = self.scene.keys().get(row)?.frame();
                format!("(of {owner}, frame {frame})")
            }
            _ => format!("(of {owner})"),
        })
    }

    /// A whole number of a cell: an id with the name of what it names, the kind of a node in words.
    fn whole(&self, table: u32, word: u32, value: u32) -> String {
        let id = value as usize;
        let named = match (table, word) {
            (2, 9..) => self.texture(id),
            (3, 2) | (4 | 9, 0) => self.node(id),
            (4 | 6, 1) => self.brush(id),
            (3, 13) => {
                return ["pivot", "mesh", "bone"]
                    .get(id)
                    .map_or(value.to_string(), |kind| kind.to_string())
            }
            (3, 16) => {
                return ["no", "yes"]
                    .get(id)
                    .map_or(value.to_string(), |is| is.to_string())
            }
            _ => return (value as i32).to_string(),
        };
        match (value, named) {
            (u32::MAX, _) => "none".to_string(),
            (_, Some(name)) => format!("{value} {}", quoted(name)),
            (_, None) => (value as i32).to_string(),
        }
    }
}

/// A name as it is told.
fn quoted(name: &[u8]) -> String {
    match name {
        [] => "unnamed".to_string(),
        _ => format!("\"{}\"", plain(name)),
    }
}

/// A cell that differs as a line of words.
fn in_words(difference: &Difference, old: &Owners, new: &Owners) -> String {
    let &Difference {
        table, row, word, ..
    } = difference;
    let mut place = row_of(difference);
    // A name that differs is told behind.
    if let (Some(about), true) = (
        old.about(table, row as usize),
        !matches!(difference.cells, Cells::Name(..)),
    ) {
        place += &format!(" {about}");
    }
    let what = match table {
        0 => column(difference),
        _ => format!("{place}, {}", column(difference)),
    };
    let [before, after] = match difference.cells {
        Cells::Whole(before, after) => [
            old.whole(table, word, before),
            new.whole(table, word, after),
        ],
        Cells::Float(before, after) => [before, after].map(decimal),
        Cells::Name(before, after) => [before, after].map(|name| format!("\"{}\"", plain(name))),
    };
    format!("{what}: {before} -> {after}")
}

/// A cell that differs as a JSON object. Whose the row is stands there by the name that the first file has for it.
fn as_json(difference: &Difference, old: &Owners) -> String {
    let values = match difference.cells {
        Cells::Whole(old, new) => [old, new].map(|value| (value as i32).to_string()),
        Cells::Float(old, new) => [old, new].map(|value| match value.is_finite() {
            true => decimal(value),
            false => json::text(&decimal(value)),
        }),
        Cells::Name(old, new) => [old, new].map(|name| json::text(&plain(name))),
    };
    let [before, after] = values;
    let &Difference {
        table, row, word, ..
    } = difference;
    let what = match table {
        0 => column(difference),
        _ => format!("{}, {}", row_of(difference), column(difference)),
    };
    let what = json::text(&what);
    let of = match old.owner(table, row as usize) {
        Some(name) => format!(",\"of\":{}", json::text(&plain(name))),
        None => String::new(),
    };
    let place = format!("\"table\":{table},\"row\":{row},\"word\":{word}");
    format!("{{{place},\"what\":{what}{of},\"old\":{before},\"new\":{after}}}")
}

/// The table and the row of a cell.
fn row_of(difference: &Difference) -> String {
    let table = (difference.table as usize).checked_sub(1);
    let many = table.map_or(HEAD.many, |table| TABLES[table].many);
    format!("{many} row {}", difference.row)
}

/// What stands in a cell.
fn column(difference: &Difference) -> String {
    let word = difference.word as usize;
    let Some(table) = (difference.table as usize).checked_sub(1) else {
        return match word.checked_sub(2) {
            Some(table) => format!("number of {}", TABLES[table].many),
            None => HEAD.column(word).expect("a word of the head").1,
        };
    };
    match (difference.table, word) {
        (3, 9..=12) => format!("rotation {}", ["w", "x", "y", "z"][word - 9]),
        (10, 7..) => format!("rotation {}", ["w", "x", "y", "z"][word - 7]),
        (3, 14) => "its mesh or first weight".to_string(),
        (3, 15) => "its meshes or weights".to_string(),
        (3, 16) => "has an ANIM".to_string(),
        (3, 20) => "nodes below it".to_string(),
        (5, 10..) => format!("coordinate {} of set {}", (word - 10) % 4, (word - 10) / 4),
        _ => TABLES[table].column(word).expect("a word of the table").1,
    }
}

/// What differs between two files, a line for each cell.
pub fn diff(
    paths: [&Path; 2],
    raw: Option<&Path>,
    json: bool,
    force: bool,
    run: &mut Run,
) -> Result<(), Stop> {
    let files = [run.load(paths[0])?, run.load(paths[1])?];
    // Refused is trouble here: 1 says that something differs.
    let compared = compare_to_vec(&files[0], &files[1]).map_err(|refusal| {
        let path = paths[usize::from(refusal.which() == Some(2))];
        Stop::Failed(about(path, refusal))
    })?;
    if let Some(raw) = raw {
        run.keep_inputs(raw)?;
        run.put_file(raw, compared.list(), force)?;
    }
    if compared.differences().next().is_none() {
        return Ok(());
    }
    let read = |number: usize| {
        let scene = Scene::read(Mode::Lenient, &files[number]);
        scene.map_err(|refusal| Stop::Failed(about(paths[number], refusal)))
    };
    let [old, new] = [read(0)?, read(1)?];
    let [old, new] = [Owners::of(&old), Owners::of(&new)];
    let (mut count, mut numbers) = (0, false);
    for difference in compared.differences() {
        count += 1;
        numbers = difference.table == 0;
        run.line(match json {
            true => as_json(&difference, &old),
            false => in_words(&difference, &old, &new),
        });
    }
    Err(Stop::Found(match (count, numbers) {
        (_, true) => {
            let what = "version, n_texs and the numbers of rows";
            format!("{count} of {what} differ; what is in the rows is not compared")
        }
        (1, _) => "1 cell differs".to_string(),
        _ => format!("{count} cells differ"),
    }))
}
