//! Numbers in groups of seven bits (paper 02, E1).

/// The shortest bytes of a number: the highest group first, the top bit set on
/// all but the last.
pub fn groups(number: u32) -> Vec<u8> {
    let mut bytes: Vec<u8> = Vec::new();
    for shift in [28, 21, 14, 7, 0] {
        let group = (number >> shift & 0x7F) as u8;
        if group != 0 || !bytes.is_empty() || shift == 0 {
            bytes.push(group | 0x80);
        }
    }
    *bytes.last_mut().expect("a last group") &= 0x7F;
    bytes
}

/// Numbers one after the other.
pub fn grouped(numbers: &[u32]) -> Vec<u8> {
    numbers.iter().flat_map(|&number| groups(number)).collect()
}
