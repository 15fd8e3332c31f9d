//! A small generator of numbers that gives the same ones on every machine: the
//! seed of a failing script is all that has to be kept of it.

#[derive(Clone, Debug)]
pub struct Random(u64);

impl Random {
    pub fn new(seed: u64) -> Random {
        Random(seed)
    }

    /// The generator of one script among many with the same seed.
    pub fn of_script(seed: u64, number: u64) -> Random {
        let mut outer = Random(seed);
        let mut inner = Random(outer.draw().wrapping_add(number));
        Random(inner.draw())
    }

    /// SplitMix64: a counter, stirred.
    pub fn draw(&mut self) -> u64 {
        self.0 = self.0.wrapping_add(0x9e37_79b9_7f4a_7c15);
        let mut value = self.0;
        value = (value ^ (value >> 30)).wrapping_mul(0xbf58_476d_1ce4_e5b9);
        value = (value ^ (value >> 27)).wrapping_mul(0x94d0_49bb_1331_11eb);
        value ^ (value >> 31)
    }

    pub fn below(&mut self, count: u64) -> u64 {
        self.draw() % count
    }

    /// From `low` to `high`, both included.
    pub fn between(&mut self, low: u64, high: u64) -> u64 {
        low + self.below(high - low + 1)
    }

    pub fn percent(&mut self, chance: u64) -> bool {
        self.below(100) < chance
    }

    pub fn pick<T: Copy>(&mut self, among: &[T]) -> T {
        among[self.below(among.len() as u64) as usize]
    }

    /// Roughly normal: twelve even draws have variance one when added. Whole
    /// numbers only, so that no machine rounds otherwise.
    pub fn normal(&mut self, mean: i64, deviation: i64) -> i64 {
        let sum: i64 = (0..12).map(|_| self.below(1001) as i64).sum();
        mean + (sum - 6000) * deviation / 1000
    }

    pub fn shuffle<T>(&mut self, items: &mut [T]) {
        for last in (1..items.len()).rev() {
            items.swap(last, self.below(last as u64 + 1) as usize);
        }
    }
}
