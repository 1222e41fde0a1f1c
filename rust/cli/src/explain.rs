//! Where a refusal stands: the chunks around its place, and the number there. No
//! name and no other byte of the file is told.

use std::ops::Range;

/// A chunk around a place: its tag, the byte of its header and the byte behind it.
#[derive(Clone, Copy)]
struct Chunk {
    tag: [u8; 4],
    head: usize,
    end: usize,
}

impl Chunk {
    /// The chunk whose header stands here, if all of that is in the file.
    fn at(file: &[u8], head: usize) -> Option<Chunk> {
        let tag = file.get(head..head + 4)?.try_into().ok()?;
        let length = word(file, head + 4)? as usize;
        let end = head + 8 + length;
        Some(Chunk { tag, head, end })
    }

    fn body(&self) -> usize {
        self.head + 8
    }

    /// Where the chunks inside it begin, if it holds any.
    fn inside(&self, file: &[u8]) -> Option<usize> {
        match &self.tag {
            b"BB3D" | b"MESH" => Some(self.body() + 4),
            b"NODE" => {
                let text = file.get(self.body()..)?;
                let zero = text.iter().position(|&byte| byte == 0)?;
                Some(self.body() + zero + 1 + 40)
            }
            _ => None,
        }
    }
}

fn word(file: &[u8], place: usize) -> Option<u32> {
    let bytes = file.get(place..place + 4)?.try_into().ok()?;
    Some(u32::from_le_bytes(bytes))
}

/// The chunks around a place, the outermost first.
fn around(file: &[u8], place: usize) -> Vec<Chunk> {
    let mut chunks = Vec::new();
    let (mut at, mut end) = (0, file.len());
    while let Some(chunk) = Chunk::at(file, at).filter(|_| at < end) {
        if chunk.end <= place {
            at = chunk.end;
            continue;
        }
        chunks.push(chunk);
        match chunk.inside(file) {
            Some(inside) if inside <= place => (at, end) = (inside, chunk.end.min(end)),
            _ => break,
        }
    }
    chunks
}

/// Where the brushes of a file stand whose chunks hold together, whatever its first
/// length says.
pub fn brushes(file: &[u8]) -> Range<usize> {
    let mut at = 12;
    while let Some(chunk) = Chunk::at(file, at) {
        if &chunk.tag == b"BRUS" {
            return at..chunk.end;
        }
        at = chunk.end;
    }
    0..0
}

/// Lines on a refusal of a scene.
pub fn lines(file: &[u8], number: u32, place: u32) -> Vec<String> {
    let at = place as usize;
    match number {
        1 => return vec![format!("the file has {} bytes", file.len())],
        2 if place == 4 => return vec![lengths(file)],
        2 => return other_kind(file).into_iter().collect(),
        3..=9 => {}
        _ => return Vec::new(),
    }
    let chunks = around(file, at);
    let mut lines = Vec::new();
    for (level, chunk) in chunks.iter().enumerate() {
        let Chunk { tag, head, end } = chunk;
        let (tag, length) = (tag.escape_ascii(), end - chunk.body());
        let line = format!("{:1$}{tag} at {head}, {length} bytes", "", 2 * level);
        let past = end.saturating_sub(file.len());
        lines.push(match past {
            0 => line,
            _ => format!("{line}, {past} past the end of the file"),
        });
    }
    if let (6 | 7, Some(chunk), Some(value)) = (number, chunks.last(), word(file, at)) {
        let (what, range, float) = meaning(chunk, number, at);
        let value = match float {
            true => f32::from_bits(value).to_string(),
            false => (value as i32).to_string(),
        };
        lines.push(format!("{what} is {value}, not {range}"));
        if let (b"TRIS", [.., mesh, _]) = (&chunk.tag, &chunks[..]) {
            lines.extend(vertices(file, mesh));
        }
    }
    lines
}

/// What a file is that does not begin with BB3D.
fn other_kind(file: &[u8]) -> Option<String> {
    let kind = match file {
        [b'C', b'S', b'F', 0, ..] => "a skeleton of cal3d: kelompuris skeleton FILE",
        [b'C', b'M', b'F', 0, ..] => "a mesh of cal3d: kelompuris mesh FILE",
        [0x1f, 0x8b, ..] => "packed by gzip",
        [b'P', b'K', 3, 4, ..] => "packed by zip",
        _ => return None,
    };
    Some(format!("the file looks like {kind}"))
}

/// What BB3D says of its length, and what is there.
fn lengths(file: &[u8]) -> String {
    let said = word(file, 4).unwrap_or(0) as usize;
    let there = file.len() - 8;
    let rest = match said > there {
        true => format!("{} are missing: the file may be cut", said - there),
        false => format!("{} are too many", there - said),
    };
    format!("BB3D says {said} bytes, {there} are there: {rest}")
}

/// What the number at a place means, what it may be, and whether it is a float.
fn meaning(chunk: &Chunk, number: u32, place: usize) -> (&'static str, &'static str, bool) {
    let colour = ("a colour", "0 to 1 (with --lenient any is taken)", true);
    let brush = ("a brush id", "-1 or the number of a brush", false);
    match (&chunk.tag, number, (place - chunk.body()) / 4) {
        (b"BB3D", ..) => ("the version", "0 to 99", false),
        (b"BRUS", 6, 0) => ("n_texs", "0 to 8", false),
        (b"BRUS", 6, _) => colour,
        (b"BRUS", ..) => ("a texture id", "-1 or the number of a texture", false),
        (b"MESH", ..) | (b"TRIS", _, 0) => brush,
        (b"VRTS", _, 0) => ("flags", "0 to 3", false),
        (b"VRTS", _, 1) => ("the number of sets", "0 to 8", false),
        (b"VRTS", _, 2) => ("the size of a set", "0 to 4", false),
        (b"VRTS", ..) => colour,
        (b"TRIS", ..) => ("a vertex id", "a vertex of the same mesh", false),
        (b"BONE", ..) => {
            let mesh = "a vertex of the nearest mesh above with an ANIM, or of the root's";
            ("a vertex id", mesh, false)
        }
        (b"KEYS", ..) => ("flags", "0 to 7", false),
        _ => ("a number", "in its range", false),
    }
}

/// How many vertices a mesh has, by its VRTS.
fn vertices(file: &[u8], mesh: &Chunk) -> Option<String> {
    let mut at = mesh.body() + 4;
    while let Some(chunk) = Chunk::at(file, at).filter(|_| at < mesh.end) {
        if &chunk.tag == b"VRTS" {
            let [flags, sets, size] = [0, 4, 8].map(|more| word(file, chunk.body() + more));
            let (flags, words) = (flags?, sets? as usize * size? as usize);
            let words = words + 3 + 3 * (flags & 1) as usize + 4 * (flags >> 1 & 1) as usize;
            let count = (chunk.end - chunk.body() - 12) / (4 * words);
            return Some(format!("the mesh has {count} vertices"));
        }
        at = chunk.end;
    }
    None
}
