//! A file as a tree of chunks, as far as it is one.

use scenes::Chunk;

/// Chunks inside each other that are told apart; inside of those all is data.
const DEEPEST: usize = 40;

/// The tree of a B3D file; none of other bytes. The first length is not looked at.
pub fn of_file(file: &[u8]) -> Option<Chunk> {
    let (tag, rest) = file.split_first_chunk::<4>()?;
    let (_, body) = rest.split_first_chunk::<4>()?;
    (tag == b"BB3D").then(|| of_body(*tag, body, 0))
}

/// A chunk of this tag and body. What is no chunk at its end is its tail.
fn of_body(tag: [u8; 4], body: &[u8], depth: usize) -> Chunk {
    let fixed = match &tag {
        b"BB3D" | b"MESH" => 4,
        b"NODE" => {
            41 + body
                .iter()
                .position(|&byte| byte == 0)
                .unwrap_or(body.len())
        }
        _ => body.len(),
    };
    if fixed > body.len() || depth == DEEPEST {
        return Chunk::of_bytes(tag, body.to_vec());
    }
    let (data, mut rest) = body.split_at(fixed);
    let mut chunk = Chunk::of_bytes(tag, data.to_vec());
    while let Some((tag, body, behind)) = split(rest) {
        chunk.chunks.push(of_body(tag, body, depth + 1));
        rest = behind;
    }
    chunk.tail = rest.to_vec();
    chunk
}

/// The tag and body of the first chunk, and what is behind it.
fn split(bytes: &[u8]) -> Option<([u8; 4], &[u8], &[u8])> {
    let (tag, rest) = bytes.split_first_chunk::<4>()?;
    let (length, rest) = rest.split_first_chunk::<4>()?;
    let (body, behind) = rest.split_at_checked(u32::from_le_bytes(*length) as usize)?;
    Some((*tag, body, behind))
}
