//! A small generator of pseudo-random numbers (splitmix64), so that a seed gives
//! the same case everywhere.

#[derive(Clone, Debug)]
pub struct Random(u64);

/// Mixes two numbers into a seed.
pub fn mix(a: u64, b: u64) -> u64 {
    let mut r = Random(a ^ b.wrapping_mul(0x9E37_79B9_7F4A_7C15).rotate_left(23));
    r.draw();
    r.draw()
}

impl Random {
    pub fn new(seed: u64) -> Self {
        Random(seed)
    }

    pub fn draw(&mut self) -> u64 {
        self.0 = self.0.wrapping_add(0x9E37_79B9_7F4A_7C15);
        let mut z = self.0;
        z = (z ^ (z >> 30)).wrapping_mul(0xBF58_476D_1CE4_E5B9);
        z = (z ^ (z >> 27)).wrapping_mul(0x94D0_49BB_1331_11EB);
        z ^ (z >> 31)
    }

    /// 0 to `n` - 1; `n` isn't 0.
    pub fn below(&mut self, n: usize) -> usize {
        ((self.draw() as u128 * n as u128) >> 64) as usize
    }

    /// `low` to `high`, both included.
    pub fn between(&mut self, low: usize, high: usize) -> usize {
        low + self.below(high - low + 1)
    }

    pub fn percent(&mut self, p: usize) -> bool {
        self.below(100) < p
    }

    pub fn pick<T: Copy>(&mut self, items: &[T]) -> T {
        items[self.below(items.len())]
    }

    pub fn word(&mut self) -> u32 {
        self.draw() as u32
    }

    pub fn byte(&mut self) -> u8 {
        self.draw() as u8
    }

    /// Bits of the mask, each with this chance in percent.
    pub fn bits(&mut self, mask: u32, p: usize) -> u32 {
        (0..32).filter(|k| mask >> k & 1 != 0 && self.percent(p)).fold(0, |all, k| all | 1 << k)
    }
}
