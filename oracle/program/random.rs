//! Random numbers from a seed (SplitMix64), so that every run can be repeated.
pub struct Random(u64);

impl Random {
    pub fn new(seed: u64) -> Random {
        Random(seed.wrapping_mul(0x9E37_79B9_7F4A_7C15) ^ 0x5851_F42D_4C95_7F2D)
    }

    pub fn next(&mut self) -> u64 {
        self.0 = self.0.wrapping_add(0x9E37_79B9_7F4A_7C15);
        let mut mixed = self.0;
        mixed = (mixed ^ (mixed >> 30)).wrapping_mul(0xBF58_476D_1CE4_E5B9);
        mixed = (mixed ^ (mixed >> 27)).wrapping_mul(0x94D0_49BB_1331_11EB);
        mixed ^ (mixed >> 31)
    }

    pub fn below(&mut self, count: usize) -> usize {
        (self.next() % count as u64) as usize
    }

    pub fn chance(&mut self, percent: usize) -> bool {
        self.below(100) < percent
    }

    pub fn pick<T: Copy>(&mut self, choices: &[T]) -> T {
        choices[self.below(choices.len())]
    }

    pub fn optional(&mut self, percent_none: usize, below: usize) -> Option<usize> {
        if self.chance(percent_none) { None } else { Some(self.below(below)) }
    }

    /// A number at a limit, or next to one.
    pub fn at_a_limit(&mut self) -> usize {
        let limits = [0, 1, 2, 63, 64, 65, 127, 128, (1 << 63) - 3, (1 << 63) - 2, (1 << 63) - 1, 1 << 63, usize::MAX - 1, usize::MAX];
        if self.chance(10) { self.next() as usize } else { self.pick(&limits) }
    }
}
