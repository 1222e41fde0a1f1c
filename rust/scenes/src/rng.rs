//! A small generator of pseudo random numbers (splitmix64). The same seed
//! gives the same numbers on every machine.

use crate::colour::INSIDE;

/// The state of the generator.
#[derive(Clone, Debug)]
pub struct Rng {
    state: u64,
}

impl Rng {
    pub fn new(seed: u64) -> Rng {
        Rng { state: seed }
    }

    /// The next 64 bits.
    pub fn bits(&mut self) -> u64 {
        self.state = self.state.wrapping_add(0x9E37_79B9_7F4A_7C15);
        let mut z = self.state;
        z = (z ^ (z >> 30)).wrapping_mul(0xBF58_476D_1CE4_E5B9);
        z = (z ^ (z >> 27)).wrapping_mul(0x94D0_49BB_1331_11EB);
        z ^ (z >> 31)
    }

    /// Any 32-bit word.
    pub fn word(&mut self) -> u32 {
        self.bits() as u32
    }

    /// Any byte.
    pub fn byte(&mut self) -> u8 {
        self.bits() as u8
    }

    /// A number from 0 to `count` minus 1; `count` is at least 1.
    pub fn below(&mut self, count: usize) -> usize {
        (self.bits() % count as u64) as usize
    }

    /// A number from `low` to `high`, both included.
    pub fn between(&mut self, low: usize, high: usize) -> usize {
        low + self.below(high - low + 1)
    }

    /// True in `percent` of 100 calls.
    pub fn percent(&mut self, percent: usize) -> bool {
        self.below(100) < percent
    }

    /// One of the values.
    pub fn pick<T: Copy>(&mut self, values: &[T]) -> T {
        values[self.below(values.len())]
    }

    /// `count` bytes of any value.
    pub fn bytes(&mut self, count: usize) -> Vec<u8> {
        (0..count).map(|_| self.byte()).collect()
    }

    /// The bits of a colour from 0 to 1, minus zero too.
    pub fn colour(&mut self) -> u32 {
        match self.below(3) {
            0 => self.pick(&INSIDE),
            1 => self.below(0x3F80_0001) as u32,
            _ => (self.below(1001) as f32 / 1000.0).to_bits(),
        }
    }

    /// The bits of a float: often plain values, also zeros of both signs,
    /// values that are no number, and infinite ones.
    pub fn float(&mut self) -> u32 {
        match self.below(6) {
            0 => self.word(),
            1 => self.pick(&[
                0,
                0x8000_0000,
                0x7F80_0000,
                0xFF80_0000,
                0x7FC0_0000,
                0x7F80_0001,
                0xFFFF_FFFF,
            ]),
            _ => (self.below(2001) as f32 / 1000.0 - 1.0).to_bits(),
        }
    }
}
