//! Files with faults that can be mended, several at once and at all depths. The
//! mended file and the report follow from how the faults are made.

use crate::chunk::{Chunk, Id, Spot};
use crate::damage::{Aim, Damaged, AIMS};
use crate::groups;
use crate::make::Scene;
use crate::rng::Rng;

/// A mend as the report has it: where its bytes begin in the given file, which of
/// the four it is, and the bytes of the given and of the mended file.
#[derive(Clone, Debug, PartialEq, Eq)]
pub struct Entry {
    pub place: usize,
    pub which: u32,
    pub given: Vec<u8>,
    pub mended: Vec<u8>,
}

/// A file with faults, the same one mended, and what was mended.
#[derive(Clone, Debug)]
pub struct Mendable {
    pub file: Vec<u8>,
    pub mended: Vec<u8>,
    pub entries: Vec<Entry>,
}

impl Mendable {
    /// The bytes of the report.
    pub fn report(&self) -> Vec<u8> {
        let mut bytes = Vec::new();
        for entry in &self.entries {
            let sizes = [entry.given.len(), entry.mended.len()];
            let numbers = [entry.place as u32, entry.which];
            bytes.extend(groups::of(&numbers));
            bytes.extend(groups::of(&sizes.map(|size| size as u32)));
            bytes.extend_from_slice(&entry.given);
            bytes.extend_from_slice(&entry.mended);
        }
        bytes
    }
}

/// A scene with faults of the four kinds, in about so many of 100 places for each.
pub fn mendable(scene: &Scene, rng: &mut Rng, percent: usize) -> Mendable {
    let mut faults = Faults::new(scene, rng, percent);
    faults.spoil(true);
    faults.done()
}

/// Files that have a fault of another kind beside those that can be mended, and the
/// refusal that it must bring.
pub fn not_mendable(scene: &Scene, rng: &mut Rng, percent: usize) -> Vec<Damaged> {
    let mut all = Vec::new();
    for (aim, make) in AIMS {
        let Some(as_mended) = refusal_when_mended(aim) else {
            continue;
        };
        let mut faults = Faults::new(scene, rng, percent);
        // Where a chunk is cut, spare bytes would come to stand in the gap.
        faults.spoil(aim != "cut data or item");
        let mut tree = faults.given;
        if let Some((number, place)) = make_in(&mut tree, rng, make, as_mended) {
            let file = tree.bytes();
            let place = place as u32;
            all.push(Damaged {
                aim,
                file,
                number,
                place,
            });
        }
    }
    all
}

/// What becomes of a fault's refusal: none if it is mended, the same, or for spare
/// bytes in a mesh without triangles 8, which comes behind them.
fn refusal_when_mended(aim: &str) -> Option<bool> {
    match aim {
        "spare bytes" | "id that names nothing" | "negative id" | "bone without vertices" => None,
        "spare bytes in a mesh without triangles" => Some(false),
        _ => Some(true),
    }
}

fn make_in(tree: &mut Chunk, rng: &mut Rng, make: Aim, same: bool) -> Option<(u32, usize)> {
    let (number, place) = make(tree, rng)?;
    if same {
        return Some((number, place));
    }
    // The place is where its spare bytes begin, the end of one mesh.
    let spots = tree.spots();
    let mesh = spots.iter().find(|spot| {
        let tail = tree.at(&spot.path).tail.len();
        &spot.tag == b"MESH" && tail > 0 && spot.end - tail == place
    })?;
    Some((8, mesh.place))
}

/// Where a mend is: in the data of a chunk, or the bytes at its end.
enum At {
    Data(usize),
    Tail,
}

/// A fault that was made: its chunk, where in it, which of the four, and how many
/// bytes it has.
struct Fault {
    path: Vec<usize>,
    at: At,
    which: u32,
    size: usize,
}

/// A scene while faults are put into it, and as it will be mended.
struct Faults<'a> {
    given: Chunk,
    mended: Chunk,
    made: Vec<Fault>,
    rng: &'a mut Rng,
    percent: usize,
}

impl Faults<'_> {
    fn new<'a>(scene: &Scene, rng: &'a mut Rng, percent: usize) -> Faults<'a> {
        Faults {
            given: scene.tree.clone(),
            mended: scene.tree.clone(),
            made: Vec::new(),
            rng,
            percent,
        }
    }

    fn now(&mut self) -> bool {
        self.rng.percent(self.percent)
    }

    fn made(&mut self, spot: &Spot, at: At, which: u32, size: usize) {
        self.made.push(Fault {
            path: spot.path.clone(),
            at,
            which,
            size,
        });
    }

    /// Makes faults in all chunks, spare bytes where asked for.
    fn spoil(&mut self, spare: bool) {
        for spot in self.given.spots() {
            match &spot.tag {
                b"MESH" | b"BRUS" => self.ids(&spot),
                b"TRIS" => {
                    self.ids(&spot);
                    self.items(&spot, 4, 12, 3);
                }
                b"BONE" => self.items(&spot, 0, 8, 1),
                _ => {}
            }
            let holds_chunks = matches!(&spot.tag, b"BB3D" | b"NODE" | b"MESH");
            if spare && holds_chunks && self.now() {
                let count = self.rng.between(1, 7);
                self.given.at_mut(&spot.path).tail = self.rng.bytes(count);
                self.made(&spot, At::Tail, 4, count);
            }
        }
    }

    /// Brush and texture ids that name nothing.
    fn ids(&mut self, spot: &Spot) {
        for id in self.given.at(&spot.path).ids.clone() {
            if id.minus_one && self.now() {
                let bad = bad_id(id.count, self.rng, 0xFFFF_FFFE);
                self.given.at_mut(&spot.path).set_word(id.at, bad);
                let mended = self.mended.at_mut(&spot.path);
                mended.set_word(id.at, 0xFFFF_FFFF);
                self.made(spot, At::Data(id.at), 2, 4);
            }
        }
    }

    /// Triangles or weights with bad vertex ids, some that stood there and some put
    /// between them. Behind `fixed` bytes the data is items of `size` bytes that
    /// begin with `ids` ids.
    fn items(&mut self, spot: &Spot, fixed: usize, size: usize, ids: usize) {
        let old = self.given.at(&spot.path).data.clone();
        let vertices = self.vertices(spot);
        let mut given = old[..fixed].to_vec();
        let mut mended = self.mended.at(&spot.path).data[..fixed].to_vec();
        let mut starts = Vec::new();
        for item in old[fixed..].chunks(size) {
            while self.now() {
                starts.push(given.len());
                let item = self.bad_item(vec![0; size], ids, vertices);
                self.made(spot, At::Data(given.len()), 3, size);
                given.extend(item);
            }
            starts.push(given.len());
            if self.now() {
                let item = self.bad_item(item.to_vec(), ids, vertices);
                self.made(spot, At::Data(given.len()), 3, size);
                given.extend(item);
            } else {
                given.extend_from_slice(item);
                mended.extend_from_slice(item);
            }
        }
        while self.now() {
            starts.push(given.len());
            let item = self.bad_item(vec![0; size], ids, vertices);
            self.made(spot, At::Data(given.len()), 3, size);
            given.extend(item);
        }
        let chunk = self.given.at_mut(&spot.path);
        chunk.data = given;
        // The marks of the items as they stand now.
        chunk.ids.retain(|id| id.minus_one);
        chunk.pieces.truncate(usize::from(chunk.has_fixed));
        for start in starts {
            chunk.pieces.push(start);
            chunk.ids.extend((0..ids).map(|number| Id {
                at: start + 4 * number,
                count: vertices,
                minus_one: false,
            }));
        }
        self.mended.at_mut(&spot.path).data = mended;
    }

    /// How many vertices the ids of TRIS or BONE may name.
    fn vertices(&self, spot: &Spot) -> u32 {
        let tree = &self.given;
        let node = match &spot.tag {
            b"TRIS" => Some(spot.path.len() - 2),
            _ => crate::damage::bone_owner(tree, &spot.path),
        };
        node.map_or(0, |steps| {
            crate::damage::node_vertices(tree.at(&spot.path[..steps])) as u32
        })
    }

    /// The item with one or more of its ids bad.
    fn bad_item(&mut self, mut item: Vec<u8>, ids: usize, vertices: u32) -> Vec<u8> {
        let sure = self.rng.below(ids);
        for number in 0..ids {
            if number == sure || self.rng.percent(30) {
                let bad = bad_id(vertices, self.rng, 0xFFFF_FFFF);
                item[4 * number..][..4].copy_from_slice(&bad.to_le_bytes());
            }
        }
        item
    }

    /// The files, and a wrong BB3D length at times: past the end, short of it, or
    /// just what the mended file has.
    fn done(mut self) -> Mendable {
        let mended = self.mended.bytes();
        if self.now() {
            let right = self.given.body_size() as u32;
            let wrong = match self.rng.below(4) {
                0 => mended.len() as u32 - 8,
                1 => right - self.rng.between(1, right as usize) as u32,
                2 => right + self.rng.between(1, 100) as u32,
                _ => self.rng.word(),
            };
            if wrong != right {
                self.given.wrong_length = Some(wrong);
            }
        }
        let file = self.given.bytes();
        let mut entries = Vec::new();
        if self.given.wrong_length.is_some() {
            entries.push(Entry {
                place: 4,
                which: 1,
                given: file[4..8].to_vec(),
                mended: mended[4..8].to_vec(),
            });
        }
        for fault in &self.made {
            let header = self.given.place_of(&fault.path);
            let chunk = self.given.at(&fault.path);
            let place = match fault.at {
                At::Data(at) => header + 8 + at,
                At::Tail => header + chunk.size() - chunk.tail.len(),
            };
            let after = match fault.which {
                2 => vec![0xFF; 4],
                _ => Vec::new(),
            };
            entries.push(Entry {
                place,
                which: fault.which,
                given: file[place..place + fault.size].to_vec(),
                mended: after,
            });
        }
        entries.sort_by_key(|entry| entry.place);
        Mendable {
            file,
            mended,
            entries,
        }
    }
}

/// An id that names none of `count`: the first past them, others, and negative ones
/// from this on down.
fn bad_id(count: u32, rng: &mut Rng, negative: u32) -> u32 {
    let more = rng.below(50) as u32;
    rng.pick(&[
        count,
        count,
        count + more,
        0x7FFF_FFFF,
        0x8000_0000,
        negative,
    ])
}
