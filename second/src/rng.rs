//! Random numbers that depend on the seed and the case number alone.

const STRIDE: u64 = 0x9E37_79B9_7F4A_7C15;

/// Operands at which programs go wrong.
pub const EDGE_VALUES: [u32; 12] = [
    0, 1, 2, 31, 32, 40, 0x7FFF_FFFF, 0x8000_0000, 0x8000_0001, 0xFFFF_FFFC, 0xFFFF_FFFE,
    0xFFFF_FFFF,
];

pub struct Rng(u64);

fn mix(number: u64) -> u64 {
    let number = (number ^ (number >> 30)).wrapping_mul(0xBF58_476D_1CE4_E5B9);
    let number = (number ^ (number >> 27)).wrapping_mul(0x94D0_49BB_1331_11EB);
    number ^ (number >> 31)
}

impl Rng {
    pub fn of_case(seed: u64, family: u64, number: u64) -> Rng {
        let start = mix(seed.wrapping_add(STRIDE)) ^ mix(family.wrapping_mul(STRIDE));
        Rng(mix(start.wrapping_add(number.wrapping_mul(STRIDE))))
    }

    pub fn next(&mut self) -> u64 {
        self.0 = self.0.wrapping_add(STRIDE);
        mix(self.0)
    }

    pub fn below(&mut self, bound: u32) -> u32 {
        (((self.next() >> 32) * u64::from(bound)) >> 32) as u32
    }

    pub fn between(&mut self, low: u32, high: u32) -> u32 {
        low + self.below(high - low + 1)
    }

    pub fn one_in(&mut self, chances: u32) -> bool {
        self.below(chances) == 0
    }

    pub fn pick<T: Copy>(&mut self, list: &[T]) -> T {
        list[self.below(list.len() as u32) as usize]
    }

    pub fn fill(&mut self, bytes: &mut [u8]) {
        for chunk in bytes.chunks_mut(8) {
            let random = self.next().to_le_bytes();
            chunk.copy_from_slice(&random[..chunk.len()]);
        }
    }

    /// An operand: an edge, a small number, an address near the image, or any number.
    pub fn operand(&mut self, length: usize) -> u32 {
        match self.below(5) {
            0 => self.pick(&EDGE_VALUES),
            1 => self.below(64),
            2 | 3 => self.below(length as u32 + 4),
            _ => self.next() as u32,
        }
    }
}
