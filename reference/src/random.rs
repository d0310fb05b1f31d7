//! Numbers by chance, the same for the same seed on every machine.

/// A small generator of pseudo-random numbers (SplitMix64).
#[derive(Clone)]
pub struct Random(pub u64);

impl Random {
    /// The generator of one case: cases with neighbouring indices have nothing in common.
    pub fn of_case(seed: u64, index: u64) -> Self {
        let mut seeds = Self(seed);
        let start = seeds.draw();
        Self(start ^ index.wrapping_mul(0xD134_2543_DE82_EF95))
    }

    pub fn draw(&mut self) -> u64 {
        self.0 = self.0.wrapping_add(0x9E37_79B9_7F4A_7C15);
        let mut z = self.0;
        z = (z ^ (z >> 30)).wrapping_mul(0xBF58_476D_1CE4_E5B9);
        z = (z ^ (z >> 27)).wrapping_mul(0x94D0_49BB_1331_11EB);
        z ^ (z >> 31)
    }

    /// From 0 up to but without `bound`.
    pub fn below(&mut self, bound: u64) -> u64 {
        self.draw() % bound
    }

    /// As [`Self::below`], for an index.
    pub fn index(&mut self, length: usize) -> usize {
        self.below(length as u64) as usize
    }

    /// Whether something of so many in a hundred comes about.
    pub fn percent(&mut self, chance: u64) -> bool {
        self.below(100) < chance
    }

    pub fn pick<T: Copy>(&mut self, of: &[T]) -> T {
        of[self.index(of.len())]
    }

    /// So many digits.
    pub fn digits(&mut self, width: usize) -> String {
        (0..width).map(|_| char::from(b'0' + self.below(10) as u8)).collect()
    }

    /// Eleven digits, the last of them right.
    pub fn account(&mut self) -> String {
        loop {
            let ten = self.digits(10);
            let sum: u32 = ten
                .bytes()
                .zip([5, 4, 3, 2, 7, 6, 5, 4, 3, 2])
                .map(|(byte, weight)| u32::from(byte - b'0') * weight)
                .sum();
            match sum % 11 {
                0 => return ten + "0",
                1 => {}
                r => return format!("{ten}{}", 11 - r),
            }
        }
    }
}
