//! Seeded random numbers, the same in every run (splitmix64).

pub struct Prng(u64);

impl Prng {
    pub fn new(seed: u64) -> Self {
        Prng(seed)
    }

    pub fn long(&mut self) -> u64 {
        self.0 = self.0.wrapping_add(0x9e37_79b9_7f4a_7c15);
        let z = (self.0 ^ (self.0 >> 30)).wrapping_mul(0xbf58_476d_1ce4_e5b9);
        let z = (z ^ (z >> 27)).wrapping_mul(0x94d0_49bb_1331_11eb);
        z ^ (z >> 31)
    }

    /// Another one, of other numbers: what is drawn from it leaves this one's as they are.
    pub fn apart(&self) -> Self {
        Prng(self.0 ^ 0xd1b5_4a32_d192_ed03)
    }

    /// A number below `n`.
    pub fn below(&mut self, n: usize) -> usize {
        (((self.long() >> 32) * n as u64) >> 32) as usize
    }

    pub fn word(&mut self) -> u32 {
        (self.long() >> 32) as u32
    }

    pub fn words<const N: usize>(&mut self) -> [u32; N] {
        std::array::from_fn(|_| self.word())
    }

    /// Any f32: every pattern is equally likely.
    pub fn float(&mut self) -> f32 {
        f32::from_bits(self.word())
    }

    /// An f32 from `low` to `high`.
    pub fn within(&mut self, low: f32, high: f32) -> f32 {
        low + (high - low) * (self.word() as f32 / u32::MAX as f32)
    }

    pub fn among<T: Copy>(&mut self, values: &[T]) -> T {
        values[self.below(values.len())]
    }
}
