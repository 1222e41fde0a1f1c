//! Meshes: submeshes (9 words), vertices (12), maps (2), influences (2),
//! springs (4) and faces (3).

use super::items::{Items, Rule};
use super::{check_room, limit_rows, store, Row};
use crate::refusal::Refusal;

const WIDTHS: [usize; 6] = [9, 12, 2, 2, 4, 3];
const VERSION: u32 = 700;

/// The reader's answer. All but number and place are 0 on refusal. The head is
/// version and number of submeshes.
#[derive(Clone, Copy, Debug, Default, PartialEq, Eq)]
pub struct MeshAnswer {
    pub number: u32,
    pub place: u32,
    pub head: [u32; 2],
    pub counts: [u32; 6],
}

#[derive(Default)]
struct Mesh {
    head: [u32; 2],
    submeshes: Vec<Row>,
    vertices: Vec<Row>,
    maps: Vec<Row>,
    influences: Vec<Row>,
    springs: Vec<Row>,
    faces: Vec<Row>,
}

impl Mesh {
    fn vertex(&mut self, items: &mut Items, bones: u32, submesh: &[u32]) -> Result<(), Refusal> {
        let (vertices, springs, maps) = (submesh[1], submesh[4], submesh[5]);
        let mut rules = vec![Rule::Any; 6];
        rules.extend([Rule::IdOrNone(vertices), Rule::Count]);
        let mut row = items.numbers(&rules)?;
        let before = [self.maps.len() as u32, self.influences.len() as u32];
        for _ in 0..maps {
            self.maps.push(items.numbers(&[Rule::Any; 2])?);
        }
        let influences = items.numbers(&[Rule::Count])?[0];
        for _ in 0..influences {
            self.influences
                .push(items.numbers(&[Rule::Id(bones), Rule::Any])?);
        }
        let cloth = match springs {
            0 => 0,
            _ => items.numbers(&[Rule::Any])?[0],
        };
        row.extend([influences, cloth]);
        row.extend(before);
        self.vertices.push(row);
        Ok(())
    }

    fn submesh(&mut self, items: &mut Items, bones: u32) -> Result<(), Refusal> {
        let mut rules = vec![Rule::Any];
        rules.extend([Rule::Count; 5]);
        let numbers = items.numbers(&rules)?;
        let (vertices, faces, springs) = (numbers[1], numbers[2], numbers[4]);
        let mut row = numbers.clone();
        row.extend([&self.vertices, &self.springs, &self.faces].map(|rows| rows.len() as u32));
        self.submeshes.push(row);
        for _ in 0..vertices {
            self.vertex(items, bones, &numbers)?;
        }
        for _ in 0..springs {
            let ids = Rule::Id(vertices);
            self.springs
                .push(items.numbers(&[ids, ids, Rule::Any, Rule::Any])?);
        }
        for _ in 0..faces {
            self.faces.push(items.numbers(&[Rule::Id(vertices); 3])?);
        }
        Ok(())
    }

    fn tables(self) -> [Vec<Row>; 6] {
        [
            self.submeshes,
            self.vertices,
            self.maps,
            self.influences,
            self.springs,
            self.faces,
        ]
    }
}

fn accept(file: &[u8], bones: u32) -> Result<([u32; 2], [Vec<Row>; 6]), Refusal> {
    let mut items = Items::open(file, b"CMF\0")?;
    let head = items.numbers(&[Rule::Exactly(VERSION), Rule::Count])?;
    let mut mesh = Mesh {
        head: [head[0], head[1]],
        ..Mesh::default()
    };
    for _ in 0..head[1] {
        mesh.submesh(&mut items, bones)?;
    }
    items.close()?;
    let head = mesh.head;
    let tables = mesh.tables();
    limit_rows(&tables)?;
    Ok((head, tables))
}

fn accepted(head: [u32; 2], tables: &[Vec<Row>; 6]) -> MeshAnswer {
    let mut counts = [0; 6];
    for (count, rows) in counts.iter_mut().zip(tables) {
        *count = rows.len() as u32;
    }
    MeshAnswer {
        number: 0,
        place: 0,
        head,
        counts,
    }
}

fn refused(refusal: Refusal) -> MeshAnswer {
    MeshAnswer {
        number: refusal.number,
        place: refusal.place as u32,
        ..MeshAnswer::default()
    }
}

/// Judges a mesh without tables, its bone ids being below a count: refusals 1
/// to 10.
pub fn judge(file: &[u8], bones: u32) -> MeshAnswer {
    match accept(file, bones) {
        Ok((head, tables)) => accepted(head, &tables),
        Err(refusal) => refused(refusal),
    }
}

/// Reads a mesh to lent tables. A refused call changes no word, and words past
/// the last row stay as found.
pub fn read(file: &[u8], bones: u32, lent: &mut [&mut [u32]; 6]) -> MeshAnswer {
    let (head, tables) = match accept(file, bones) {
        Ok(mesh) => mesh,
        Err(refusal) => return refused(refusal),
    };
    let room: Vec<usize> = lent.iter().map(|table| table.len()).collect();
    if let Err(refusal) = check_room(&tables, &WIDTHS, &room) {
        return refused(refusal);
    }
    for (rows, table) in tables.iter().zip(lent) {
        store(rows, table);
    }
    accepted(head, &tables)
}
