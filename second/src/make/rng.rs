//! The source of every choice, so that a seed gives the same texts again.

/// SplitMix64.
pub(crate) struct Rng(u64);

impl Rng {
    pub(crate) fn new(seed: u64, at: u64) -> Self {
        let mut rng = Rng(seed ^ at.wrapping_mul(0xA076_1D64_78BD_642F));
        rng.next();
        rng
    }

    pub(crate) fn next(&mut self) -> u64 {
        self.0 = self.0.wrapping_add(0x9E37_79B9_7F4A_7C15);
        let mut z = self.0;
        z = (z ^ (z >> 30)).wrapping_mul(0xBF58_476D_1CE4_E5B9);
        z = (z ^ (z >> 27)).wrapping_mul(0x94D0_49BB_1331_11EB);
        z ^ (z >> 31)
    }

    /// Below `n`; 0 if there is no such number.
    pub(crate) fn below(&mut self, n: usize) -> usize {
        ((u128::from(self.next()) * n as u128) >> 64) as usize
    }

    pub(crate) fn chance(&mut self, percent: usize) -> bool {
        self.below(100) < percent
    }

    pub(crate) fn pick<T: Clone>(&mut self, from: &[T]) -> T {
        from[self.below(from.len())].clone()
    }

    /// One of those that pass a test.
    pub(crate) fn pick_where(
        &mut self,
        n: usize,
        test: impl FnMut(&usize) -> bool,
    ) -> Option<usize> {
        let passed: Vec<usize> = (0..n).filter(test).collect();
        (!passed.is_empty()).then(|| self.pick(&passed))
    }

    /// A number: small for the most part, else at the ends of 32 bits.
    pub(crate) fn number(&mut self) -> i32 {
        match self.below(20) {
            0 => i32::MAX,
            1 => i32::MIN,
            2 => self.next() as i32,
            3 => 65_536,
            4..=6 => -(self.below(4) as i32),
            _ => self.below(6) as i32,
        }
    }
}
