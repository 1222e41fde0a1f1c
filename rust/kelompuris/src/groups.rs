//! Numbers in groups of seven bits, and texts between them, taken apart.

/// Bytes that are taken from the front: numbers in groups of seven bits, texts.
#[derive(Clone, Debug)]
pub(crate) struct Bytes<'a>(pub &'a [u8]);

impl<'a> Bytes<'a> {
    pub fn is_empty(&self) -> bool {
        self.0.is_empty()
    }

    pub fn number(&mut self) -> u32 {
        let end = self.0.iter().position(|byte| byte & 0x80 == 0);
        let groups = self.part(end.map_or(u32::MAX, |end| end as u32 + 1));
        let add = |number, byte: &u8| number << 7 | u32::from(byte & 0x7F);
        groups.iter().fold(0, add)
    }

    /// The next `size` bytes, or all if there are fewer.
    pub fn part(&mut self, size: u32) -> &'a [u8] {
        let (part, left) = self.0.split_at(self.0.len().min(size as usize));
        self.0 = left;
        part
    }
}
