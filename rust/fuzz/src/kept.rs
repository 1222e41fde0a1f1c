//! Inputs that are kept, one behind the other in one file: each behind its length, as four
//! bytes.

use std::io;

/// The bytes of a file that keeps these inputs.
pub fn joined(inputs: &[Vec<u8>]) -> Vec<u8> {
    let mut bytes = Vec::new();
    for input in inputs {
        bytes.extend((input.len() as u32).to_le_bytes());
        bytes.extend(input);
    }
    bytes
}

/// The inputs that a file keeps; an error where the last is cut.
pub fn apart(mut bytes: &[u8]) -> io::Result<Vec<Vec<u8>>> {
    let mut inputs = Vec::new();
    while !bytes.is_empty() {
        let cut = || io::Error::other("a kept input is cut");
        let (length, rest) = bytes.split_first_chunk::<4>().ok_or_else(cut)?;
        let length = u32::from_le_bytes(*length) as usize;
        let (input, rest) = rest.split_at_checked(length).ok_or_else(cut)?;
        inputs.push(input.to_vec());
        bytes = rest;
    }
    Ok(inputs)
}
