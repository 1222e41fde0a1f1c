//! The commands on skeletons and meshes of cal3d.

use crate::answer::{about, accepted, Stop};
use crate::commands::{check_each, put_tables, shown};
use crate::run::Run;
use crate::text;
use crate::words::Words;
use kelompuris::cal3d::{judge_skeleton, Bone, Skeleton, Submeshes};
use kelompuris::columns::cal3d::{MESH_HEAD, SKELETON_HEAD};
use kelompuris::columns::Table;
use kelompuris::{Refusal, Row, Subject};
use std::path::Path;

/// Which files a command takes.
#[derive(Clone, Copy)]
pub enum Kind {
    Skeleton,
    /// A mesh whose bone ids are below a count.
    Mesh {
        bones: u32,
    },
}

/// An accepted file, whatever its kind.
enum Opened<'a> {
    Skeleton(Skeleton<'a>),
    Mesh(Submeshes),
}

impl Kind {
    fn subject(self) -> Subject {
        match self {
            Kind::Skeleton => Subject::Skeleton,
            Kind::Mesh { .. } => Subject::Mesh,
        }
    }

    /// The header's numbers, as a table of one row.
    fn head(self) -> &'static Table {
        match self {
            Kind::Skeleton => &SKELETON_HEAD,
            Kind::Mesh { .. } => &MESH_HEAD,
        }
    }

    fn read(self, file: &[u8]) -> Result<Opened<'_>, Refusal> {
        match self {
            Kind::Skeleton => Skeleton::read(file).map(Opened::Skeleton),
            Kind::Mesh { bones } => Submeshes::read(file, bones).map(Opened::Mesh),
        }
    }
}

impl Opened<'_> {
    fn head(&self) -> &[u32] {
        match self {
            Opened::Skeleton(skeleton) => skeleton.head(),
            Opened::Mesh(mesh) => mesh.head(),
        }
    }

    fn words(&self) -> &[Vec<u32>] {
        match self {
            Opened::Skeleton(skeleton) => skeleton.words(),
            Opened::Mesh(mesh) => mesh.words(),
        }
    }

    /// How many rows each table has.
    fn counts(&self, kind: Kind) -> Vec<u32> {
        let each = kind.subject().tables().iter().zip(self.words());
        each.map(|(table, words)| (words.len() / table.words()) as u32)
            .collect()
    }
}

/// As many bones as a skeleton can have.
const MOST_BONES: u32 = 16_383;

/// How many bones a mesh may name: the number behind `--bones`, or the bones of
/// the accepted skeleton behind `--skeleton`; without either as many as a
/// skeleton can have.
pub fn bones(words: &Words, run: &mut Run) -> Result<u32, Stop> {
    match (words.value("--bones")?, words.value("--skeleton")?) {
        (None, None) => Ok(MOST_BONES),
        (Some(count), None) => {
            let count = count.to_str().and_then(|digits| digits.parse().ok());
            count.ok_or_else(|| words.wrong("--bones takes a number of bones"))
        }
        (None, Some(path)) => {
            let path = Path::new(path);
            let held = judge_skeleton(&run.load(path)?).result();
            let held = held.map_err(|refusal| Stop::refused(path, refusal))?;
            Ok(held.counts[0])
        }
        _ => Err(words.wrong("--bones or --skeleton, not both")),
    }
}

/// A line for each file: its answer in words.
pub fn check(kind: Kind, paths: &[&Path], run: &mut Run) -> Result<(), Stop> {
    check_each(paths, run, |path, file| {
        match file.map(|file| kind.read(file)) {
            Ok(Ok(opened)) => {
                let counts = opened.counts(kind);
                let words = accepted(kind.subject(), opened.head()[0], None, &counts);
                (true, about(path, words))
            }
            Ok(Err(refusal)) => (false, about(path, refusal)),
            Err(why) => (false, why.to_string()),
        }
    })
}

/// Number and place; if accepted the header's numbers, the row counts, and what
/// the file holds.
pub fn list(kind: Kind, path: &Path, run: &mut Run) -> Result<(), Stop> {
    let file = run.load(path)?;
    let opened = kind.read(&file).map_err(|refusal| {
        run.numbers(&[refusal.number(), refusal.place()]);
        Stop::refused(path, refusal)
    })?;
    run.numbers(&[0, 0]);
    run.line(text::cells(kind.head(), opened.head(), &[]).join(" "));
    run.numbers(&opened.counts(kind));
    match &opened {
        Opened::Skeleton(skeleton) => list_bones(skeleton, run),
        Opened::Mesh(mesh) => list_submeshes(mesh, run),
    }
    Ok(())
}

/// The tables of a file as a folder of texts.
pub fn tables(kind: Kind, path: &Path, folder: &Path, run: &mut Run) -> Result<(), Stop> {
    let file = run.load(path)?;
    let opened = kind
        .read(&file)
        .map_err(|refusal| Stop::refused(path, refusal))?;
    let each = kind.subject().tables().iter().zip(opened.words());
    let head = text::print(kind.head(), opened.head(), &[]);
    put_tables(folder, (kind.head(), head), each, &file, run)
}

/// A bone more levels than this below a root is listed at that level, with
/// its own before its name, so that the listing of a chain stays linear.
const DEEPEST: usize = 32;

/// A name as it is listed: cal3d's own writer stores a zero behind each name, and
/// counts it in the length.
fn without_zero(name: &[u8]) -> &[u8] {
    name.strip_suffix(&[0]).unwrap_or(name)
}

/// The bones as trees, a parent before its children, these in the order of its
/// list, two spaces further in.
fn list_bones(skeleton: &Skeleton, run: &mut Run) {
    let bones: Vec<Bone> = skeleton.bones().collect();
    let no_parent = |bone: &u32| bones[*bone as usize].parent().is_none();
    let mut left: Vec<(usize, u32)> = (0..bones.len() as u32)
        .rev()
        .filter(no_parent)
        .map(|bone| (0, bone))
        .collect();
    while let Some((level, bone)) = left.pop() {
        let bone = bones[bone as usize];
        let name = shown(without_zero(bone.name()));
        let line = match level {
            0..=DEEPEST => format!("{:1$}{name}", "", 2 * level),
            _ => format!("{:1$}{level}: {name}", "", 2 * DEEPEST),
        };
        run.line(line);
        let list = skeleton.children(&bone);
        left.extend(list.iter().rev().map(|&child| (level + 1, child)));
    }
}

/// A line for each submesh: its numbers, each with its column's name.
fn list_submeshes(mesh: &Submeshes, run: &mut Run) {
    let table = &Subject::Mesh.tables()[0];
    let header = table.header();
    for submesh in mesh.submeshes() {
        let cells = text::cells(table, submesh.words(), &[]);
        let named = header.split('\t').zip(cells).take(6);
        let parts: Vec<String> = named.map(|(name, cell)| format!("{name} {cell}")).collect();
        run.line(parts.join(", "));
    }
}
