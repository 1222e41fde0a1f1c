//! Numbers in groups of seven bits, the highest first, the top bit set on all but
//! the last: 128 is 81 00.

/// Adds a number.
pub fn put(bytes: &mut Vec<u8>, number: u32) {
    if number > 127 {
        let start = bytes.len();
        put(bytes, number >> 7);
        bytes[start..].iter_mut().for_each(|byte| *byte |= 0x80);
    }
    bytes.push(number as u8 & 0x7F);
}

/// Numbers one after the other.
pub fn of(numbers: &[u32]) -> Vec<u8> {
    let mut bytes = Vec::new();
    for &number in numbers {
        put(&mut bytes, number);
    }
    bytes
}
