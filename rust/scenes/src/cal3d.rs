//! Valid and damaged cal3d skeletons and meshes. A file is built item by item,
//! so that each place is known; no reader is used.

use crate::change::other_word;
use crate::rng::Rng;

pub const NONE: u32 = 0xFFFF_FFFF;

/// A file, the words that its tables must hold, and the places of its parts.
#[derive(Clone, Debug, Default)]
pub struct Made {
    pub file: Vec<u8>,
    pub tables: Vec<Vec<u32>>,
    /// Items: their first byte and their size.
    pub items: Vec<(usize, usize)>,
    /// Counts and lengths: their places.
    pub counts: Vec<usize>,
    /// Ids: their places, and how many things they may name.
    pub ids: Vec<(usize, u32)>,
    /// Ids that may be -1 too.
    pub loose_ids: Vec<(usize, u32)>,
    /// The first byte of each bone.
    pub bones: Vec<usize>,
    /// The first byte of each influence, which is that of its bone's id.
    pub influences: Vec<usize>,
}

impl Made {
    /// A file of nothing but its magic token, to be filled item by item.
    pub fn new(magic: &[u8; 4], tables: usize) -> Made {
        Made {
            file: magic.to_vec(),
            tables: vec![Vec::new(); tables],
            ..Made::default()
        }
    }

    /// Adds an item of numbers; the place of its first byte.
    pub fn item(&mut self, numbers: &[u32]) -> usize {
        let place = self.file.len();
        self.items.push((place, 4 * numbers.len()));
        for number in numbers {
            self.file.extend(number.to_le_bytes());
        }
        place
    }

    /// Adds the bytes of a name.
    pub fn name(&mut self, bytes: &[u8]) {
        self.items.push((self.file.len(), bytes.len()));
        self.file.extend(bytes);
    }
}

/// The same file with another number at a place.
pub fn with_number(file: &[u8], place: usize, number: u32) -> Vec<u8> {
    let mut changed = file.to_vec();
    changed[place..place + 4].copy_from_slice(&number.to_le_bytes());
    changed
}

/// Parents of so many bones that make trees, in any order.
pub fn parents(rng: &mut Rng, bones: usize) -> Vec<u32> {
    let mut order: Vec<usize> = (0..bones).collect();
    for last in (1..bones).rev() {
        order.swap(last, rng.below(last + 1));
    }
    let mut parents = vec![NONE; bones];
    for at in 1..bones {
        if rng.percent(80) {
            parents[order[at]] = order[rng.below(at)] as u32;
        }
    }
    parents
}

/// The lists that belong to parents, each in any order.
pub fn lists(rng: &mut Rng, parents: &[u32]) -> Vec<Vec<u32>> {
    let mut lists = vec![Vec::new(); parents.len()];
    for (bone, &parent) in parents.iter().enumerate() {
        if parent != NONE {
            let list: &mut Vec<u32> = &mut lists[parent as usize];
            list.insert(rng.below(list.len() + 1), bone as u32);
        }
    }
    lists
}

/// A skeleton with these parents and lists, right or wrong.
pub fn skeleton_of(
    rng: &mut Rng,
    parents: &[u32],
    lists: &[Vec<u32>],
    longest_name: usize,
) -> Made {
    let count = parents.len() as u32;
    let mut made = Made::new(b"CSF\0", 2);
    let head = made.item(&[1300, count, rng.float(), rng.float(), rng.float()]);
    made.counts.push(head + 4);
    for (parent, list) in parents.iter().zip(lists) {
        let length = rng.below(longest_name + 1);
        let name = rng.bytes(length);
        let place = made.item(&[name.len() as u32]);
        made.bones.push(place);
        made.counts.push(place);
        made.name(&name);
        let mut numbers: Vec<u32> = (0..14).map(|_| rng.float()).collect();
        numbers.extend([
            *parent,
            rng.word(),
            rng.float(),
            rng.float(),
            rng.float(),
            list.len() as u32,
        ]);
        let start = made.item(&numbers);
        made.loose_ids.push((start + 56, count));
        made.counts.push(start + 76);
        let before = made.tables[1].len() as u32;
        made.tables[0].extend([place as u32 + 4, name.len() as u32]);
        made.tables[0].extend(&numbers);
        made.tables[0].push(before);
        for child in list {
            let at = made.item(&[*child]);
            made.ids.push((at, count));
            made.tables[1].push(*child);
        }
    }
    made
}

/// A valid skeleton of up to so many bones.
pub fn skeleton(rng: &mut Rng, most: usize) -> Made {
    let bones = rng.below(most + 1);
    let parents = parents(rng, bones);
    let lists = lists(rng, &parents);
    skeleton_of(rng, &parents, &lists, 12)
}

/// What a submesh is to have: so many vertices, faces and springs; for each
/// vertex so many maps, and influences between two numbers.
#[derive(Clone, Copy, Debug)]
pub struct Shape {
    pub vertices: u32,
    pub faces: u32,
    pub springs: u32,
    pub maps: u32,
    pub influences: [usize; 2],
}

impl Shape {
    pub const EMPTY: Shape = Shape {
        vertices: 0,
        faces: 0,
        springs: 0,
        maps: 0,
        influences: [0, 0],
    };

    /// A small one.
    fn any(rng: &mut Rng) -> Shape {
        let vertices = rng.below(6) as u32;
        let mut some = || match vertices == 0 || rng.percent(40) {
            true => 0,
            false => rng.below(4) as u32,
        };
        let (faces, springs) = (some(), some());
        Shape {
            vertices,
            faces,
            springs,
            maps: rng.below(4) as u32,
            influences: [0, 3],
        }
    }
}

fn vertex(rng: &mut Rng, made: &mut Made, bones: u32, shape: &Shape) {
    let vertices = shape.vertices;
    let mut numbers: Vec<u32> = (0..6).map(|_| rng.float()).collect();
    let collapse = match rng.percent(40) {
        true => NONE,
        false => rng.below(vertices as usize) as u32,
    };
    numbers.extend([collapse, rng.below(5) as u32]);
    let start = made.item(&numbers);
    made.loose_ids.push((start + 24, vertices));
    made.counts.push(start + 28);
    let before = [
        made.tables[2].len() as u32 / 2,
        made.tables[3].len() as u32 / 2,
    ];
    for _ in 0..shape.maps {
        let map = [rng.float(), rng.float()];
        made.item(&map);
        made.tables[2].extend(map);
    }
    let [least, most] = shape.influences;
    let influences = match bones {
        0 => 0,
        _ => rng.between(least, most) as u32,
    };
    let at = made.item(&[influences]);
    made.counts.push(at);
    for _ in 0..influences {
        let influence = [rng.below(bones as usize) as u32, rng.float()];
        let at = made.item(&influence);
        made.ids.push((at, bones));
        made.influences.push(at);
        made.tables[3].extend(influence);
    }
    let mut cloth = 0;
    if shape.springs > 0 {
        cloth = rng.float();
        made.item(&[cloth]);
    }
    made.tables[1].extend(numbers);
    made.tables[1].extend([influences, cloth]);
    made.tables[1].extend(before);
}

/// A valid mesh of up to so many submeshes, for a skeleton of so many bones.
pub fn mesh(rng: &mut Rng, bones: u32, most: usize) -> Made {
    let shapes: Vec<Shape> = (0..rng.below(most + 1)).map(|_| Shape::any(rng)).collect();
    mesh_of(rng, bones, &shapes)
}

/// A valid mesh of such submeshes.
pub fn mesh_of(rng: &mut Rng, bones: u32, shapes: &[Shape]) -> Made {
    let mut made = Made::new(b"CMF\0", 6);
    made.item(&[700, shapes.len() as u32]);
    made.counts.push(8);
    for shape in shapes {
        submesh(rng, &mut made, bones, shape);
    }
    made
}

fn submesh(rng: &mut Rng, made: &mut Made, bones: u32, shape: &Shape) {
    let vertices = shape.vertices;
    let numbers = [
        rng.word(),
        vertices,
        shape.faces,
        rng.below(9) as u32,
        shape.springs,
        shape.maps,
    ];
    let start = made.item(&numbers);
    made.counts.extend((1..6).map(|index| start + 4 * index));
    let before =
        [(1, 12), (4, 4), (5, 3)].map(|(table, width)| (made.tables[table].len() / width) as u32);
    made.tables[0].extend(numbers);
    made.tables[0].extend(before);
    for _ in 0..vertices {
        vertex(rng, made, bones, shape);
    }
    for _ in 0..shape.springs {
        let ids = [(); 2].map(|_| rng.below(vertices as usize) as u32);
        let spring = [ids[0], ids[1], rng.float(), rng.float()];
        let at = made.item(&spring);
        made.ids.extend([(at, vertices), (at + 4, vertices)]);
        made.tables[4].extend(spring);
    }
    for _ in 0..shape.faces {
        let face = [(); 3].map(|_| rng.below(vertices as usize) as u32);
        let at = made.item(&face);
        made.ids
            .extend([(at, vertices), (at + 4, vertices), (at + 8, vertices)]);
        made.tables[5].extend(face);
    }
}

/// A valid mesh, for a skeleton of one bone, with so many rows in table 1 to 6
/// and few in the others; but for table 1, in one submesh.
pub fn mesh_with_rows(rng: &mut Rng, table: usize, rows: usize) -> Made {
    let one = Shape {
        vertices: 1,
        ..Shape::EMPTY
    };
    let count = rows as u32;
    let shape = match table {
        1 => return mesh_of(rng, 1, &vec![Shape::EMPTY; rows]),
        2 => Shape {
            vertices: count,
            ..one
        },
        3 => Shape { maps: count, ..one },
        4 => Shape {
            influences: [rows, rows],
            ..one
        },
        5 => Shape {
            springs: count,
            ..one
        },
        _ => Shape {
            faces: count,
            ..one
        },
    };
    mesh_of(rng, 1, &[shape])
}

/// A valid mesh with so many rows in tables 2 to 6, for a skeleton of as many
/// bones: in this many submeshes, which all have the same.
pub fn mesh_with_all_rows(rng: &mut Rng, submeshes: usize, rows: usize) -> Made {
    let each = (rows / submeshes) as u32;
    let shape = Shape {
        vertices: each,
        faces: each,
        springs: each,
        maps: 1,
        influences: [1, 1],
    };
    mesh_of(rng, rows as u32, &vec![shape; submeshes])
}

/// A valid skeleton without names, with these parents.
pub fn skeleton_with_parents(rng: &mut Rng, parents: &[u32]) -> Made {
    let lists = lists(rng, parents);
    skeleton_of(rng, parents, &lists, 0)
}

/// A skeleton of up to so many bones with any parents and any lists, most often
/// wrong.
pub fn any_trees(rng: &mut Rng, most: usize) -> Made {
    let bones = rng.between(1, most);
    let some = |rng: &mut Rng| rng.below(bones) as u32;
    let parents: Vec<u32> = (0..bones)
        .map(|_| match rng.percent(40) {
            true => NONE,
            false => some(rng),
        })
        .collect();
    let mut lists = lists(rng, &parents);
    for _ in 0..rng.below(3) {
        let list = some(rng) as usize;
        let child = some(rng);
        match rng.percent(50) {
            true => lists[list].push(child),
            false => lists[list].retain(|&listed| listed != child),
        }
    }
    skeleton_of(rng, &parents, &lists, 3)
}

/// A file with some of its counts and ids changed, perhaps cut or longer after
/// that, without regard to the outcome.
pub fn changed(rng: &mut Rng, made: &Made) -> Vec<u8> {
    let mut file = made.file.clone();
    let ids = made.ids.iter().chain(&made.loose_ids);
    let places: Vec<usize> = made
        .counts
        .iter()
        .copied()
        .chain(ids.map(|id| id.0))
        .collect();
    for _ in 0..rng.between(1, 3) {
        let place = rng.pick(&places);
        let old = u32::from_le_bytes(file[place..place + 4].try_into().unwrap());
        file = with_number(&file, place, other_word(old, rng));
    }
    match rng.below(4) {
        0 => file.truncate(rng.between(12, file.len())),
        1 => file.extend(rng.bytes(3)),
        _ => {}
    }
    file
}

/// A file with one fault, and the refusal that it must bring.
#[derive(Clone, Debug)]
pub struct Fault {
    pub file: Vec<u8>,
    pub number: u32,
    pub place: usize,
    pub about: &'static str,
}

/// A valid file with one fault of reading order (1, 2, 5, 6, 7).
pub fn fault(rng: &mut Rng, made: &Made) -> Fault {
    let file = &made.file;
    let of = |file: Vec<u8>, number: u32, place: usize, about: &'static str| Fault {
        file,
        number,
        place,
        about,
    };
    match rng.below(8) {
        0 => of(file[..rng.below(12)].to_vec(), 1, 0, "too few bytes"),
        1 => {
            let mut changed = file.clone();
            let at = rng.below(4);
            changed[at] ^= 1 << rng.below(8);
            of(changed, 2, 0, "another magic")
        }
        2 => {
            // The last item that has bytes is cut: it starts behind those before it.
            let (place, size) = made.items[rng.below(made.items.len())];
            let end = place + rng.below(size.max(1));
            match size == 0 || end < 12 {
                true => fault(rng, made),
                false => of(file[..end].to_vec(), 5, place, "a cut item"),
            }
        }
        3 => {
            let mut longer = file.clone();
            let extra = rng.between(1, 9);
            longer.extend(rng.bytes(extra));
            of(longer, 5, file.len(), "bytes after the last entry")
        }
        4 => of(
            with_number(file, 4, rng.word() | 1),
            6,
            4,
            "another version",
        ),
        5 => {
            let place = rng.pick(&made.counts);
            of(
                with_number(file, place, rng.word() | 0x8000_0000),
                6,
                place,
                "a negative count",
            )
        }
        6 => match made.ids.is_empty() {
            true => fault(rng, made),
            false => {
                let (place, count) = rng.pick(&made.ids);
                let past = count + rng.below(9) as u32;
                let id = rng.pick(&[count, NONE, 0x8000_0000, past]);
                of(
                    with_number(file, place, id),
                    7,
                    place,
                    "an id that names nothing",
                )
            }
        },
        _ => match made.loose_ids.is_empty() {
            true => fault(rng, made),
            false => {
                let (place, count) = rng.pick(&made.loose_ids);
                let past = count + rng.below(9) as u32;
                let id = rng.pick(&[count, NONE - 1, 0x8000_0000, past]);
                of(
                    with_number(file, place, id),
                    7,
                    place,
                    "an id that names nothing and is not -1",
                )
            }
        },
    }
}

/// A skeleton whose lists and parents do not tell the same trees, and the
/// lowest bone that is wrong by its making.
pub fn wrong_trees(rng: &mut Rng, most: usize) -> Option<Fault> {
    let bones = rng.between(1, most);
    let mut parents = parents(rng, bones);
    let mut lists = lists(rng, &parents);
    let bone = rng.below(bones);
    let other = rng.below(bones);
    let own = |parents: &[u32], bone: usize| parents[bone];
    let (lowest, about) = match rng.below(4) {
        0 if own(&parents, bone) != NONE => {
            let list = &mut lists[parents[bone] as usize];
            list.retain(|&child| child != bone as u32);
            (bone, "a bone that its parent does not list")
        }
        1 if own(&parents, bone) != NONE => {
            let list = &mut lists[parents[bone] as usize];
            list.push(bone as u32);
            (bone, "a bone that its parent lists twice")
        }
        2 if own(&parents, bone) != other as u32 => {
            lists[other].push(bone as u32);
            (bone, "a bone that another lists")
        }
        3 if own(&parents, bone) == NONE => {
            // A root under one of its own tree: its whole tree never ends.
            let mut inside = vec![bone];
            let mut at = 0;
            while at < inside.len() {
                inside.extend(lists[inside[at]].iter().map(|&child| child as usize));
                at += 1;
            }
            let below = inside[rng.below(inside.len())];
            parents[bone] = below as u32;
            lists[below].push(bone as u32);
            (*inside.iter().min().unwrap(), "parents that never end")
        }
        _ => return None,
    };
    let made = skeleton_of(rng, &parents, &lists, 6);
    Some(Fault {
        place: made.bones[lowest],
        file: made.file,
        number: 16,
        about,
    })
}
