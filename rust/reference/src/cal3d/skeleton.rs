//! Skeletons: bones (23 words) and children (1).

use super::items::{Items, Rule};
use super::trees::first_wrong;
use super::{check_room, limit_rows, store, Row, TREES};
use crate::refusal::{refuse, Refusal};

const WIDTHS: [usize; 2] = [23, 1];
const VERSION: u32 = 1300;

/// The reader's answer. All but number and place are 0 on refusal. The head is
/// version, number of bones, ambient red, green and blue.
#[derive(Clone, Copy, Debug, Default, PartialEq, Eq)]
pub struct SkeletonAnswer {
    pub number: u32,
    pub place: u32,
    pub head: [u32; 5],
    pub counts: [u32; 2],
}

/// A bone as the trees see it.
pub struct Bone {
    pub place: usize,
    pub parent: u32,
    pub children: Vec<u32>,
}

struct Skeleton {
    head: [u32; 5],
    tables: [Vec<Row>; 2],
}

fn bone_rules(bones: u32) -> Vec<Rule> {
    let mut rules = vec![Rule::Any; 14];
    rules.push(Rule::IdOrNone(bones));
    rules.extend([Rule::Any; 4]);
    rules.push(Rule::Count);
    rules
}

fn accept(file: &[u8]) -> Result<Skeleton, Refusal> {
    let mut items = Items::open(file, b"CSF\0")?;
    let head = items.numbers(&[
        Rule::Exactly(VERSION),
        Rule::Count,
        Rule::Any,
        Rule::Any,
        Rule::Any,
    ])?;
    let count = head[1];
    let (mut bones, mut rows, mut children) = (Vec::new(), Vec::new(), Vec::new());
    let rules = bone_rules(count);
    for _ in 0..count {
        let place = items.place;
        let length = items.numbers(&[Rule::Count])?[0];
        let name = items.name(length)?;
        let numbers = items.numbers(&rules)?;
        let mut list = Vec::new();
        let before = children.len();
        for _ in 0..numbers[19] {
            let child = items.numbers(&[Rule::Id(count)])?;
            list.push(child[0]);
            children.push(child);
        }
        let mut row = vec![name as u32, length];
        row.extend(&numbers);
        row.push(before as u32);
        rows.push(row);
        bones.push(Bone {
            place,
            parent: numbers[14],
            children: list,
        });
    }
    items.close()?;
    let tables = [rows, children];
    limit_rows(&tables)?;
    match first_wrong(&bones) {
        Some(bone) => refuse(TREES, bones[bone].place),
        None => Ok(Skeleton {
            head: head.try_into().unwrap(),
            tables,
        }),
    }
}

impl Skeleton {
    fn answer(&self) -> SkeletonAnswer {
        let counts = [self.tables[0].len() as u32, self.tables[1].len() as u32];
        SkeletonAnswer {
            number: 0,
            place: 0,
            head: self.head,
            counts,
        }
    }
}

fn refused(refusal: Refusal) -> SkeletonAnswer {
    SkeletonAnswer {
        number: refusal.number,
        place: refusal.place as u32,
        ..SkeletonAnswer::default()
    }
}

/// Judges a skeleton without tables: refusals 1 to 10 and 16.
pub fn judge(file: &[u8]) -> SkeletonAnswer {
    accept(file).map_or_else(refused, |skeleton| skeleton.answer())
}

/// Reads a skeleton to lent tables. A refused call changes no word, and words
/// past the last row stay as found.
pub fn read(file: &[u8], tables: &mut [&mut [u32]; 2]) -> SkeletonAnswer {
    let room = [tables[0].len(), tables[1].len()];
    let skeleton = match accept(file) {
        Ok(skeleton) => skeleton,
        Err(refusal) => return refused(refusal),
    };
    if let Err(refusal) = check_room(&skeleton.tables, &WIDTHS, &room) {
        return refused(refusal);
    }
    for (rows, table) in skeleton.tables.iter().zip(tables) {
        store(rows, table);
    }
    skeleton.answer()
}
