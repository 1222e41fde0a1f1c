//! Chunk headers ("Chunks"), with refusal 3.

use crate::numbers::word;
use crate::refusal::{refuse, Refusal, HEADER};

/// The known tags, capitals only.
const KNOWN: [&[u8; 4]; 10] = [
    b"BB3D", b"TEXS", b"BRUS", b"NODE", b"MESH", b"VRTS", b"TRIS", b"BONE", b"KEYS", b"ANIM",
];

/// Bytes of a tag and a length.
pub const HEADER_SIZE: usize = 8;

/// A chunk: its tag and the places of its header, its first byte after the
/// header, and its end.
pub struct Chunk {
    pub tag: [u8; 4],
    pub header: usize,
    pub body: usize,
    pub end: usize,
}

impl Chunk {
    /// Whether the tag is one of the ten.
    pub fn is_known(&self) -> bool {
        KNOWN.contains(&&self.tag)
    }
}

/// The chunk whose header stands at `at`, or none if the enclosing chunk ends
/// there. 3 for 1 to 7 bytes, or for a length past the enclosing chunk.
pub fn chunk_at(file: &[u8], at: usize, enclosing_end: usize) -> Result<Option<Chunk>, Refusal> {
    let left = enclosing_end - at;
    if left == 0 {
        return Ok(None);
    }
    if left < HEADER_SIZE {
        return refuse(HEADER, at);
    }
    let length = word(file, at + 4) as usize;
    if length > left - HEADER_SIZE {
        return refuse(HEADER, at);
    }
    let body = at + HEADER_SIZE;
    Ok(Some(Chunk {
        tag: [file[at], file[at + 1], file[at + 2], file[at + 3]],
        header: at,
        body,
        end: body + length,
    }))
}
