//! Numbers from a seed, the same on every machine (SplitMix64).

#[derive(Clone)]
pub struct Random(u64);

impl Random {
    pub fn new(seed: u64) -> Random {
        Random(seed)
    }

    pub fn bits(&mut self) -> u64 {
        self.0 = self.0.wrapping_add(0x9E37_79B9_7F4A_7C15);
        let a = (self.0 ^ (self.0 >> 30)).wrapping_mul(0xBF58_476D_1CE4_E5B9);
        let b = (a ^ (a >> 27)).wrapping_mul(0x94D0_49BB_1331_11EB);
        b ^ (b >> 31)
    }

    /// A number from `low` to `high`, both possible. (That the low ones come a little more often does not matter here.)
    pub fn within(&mut self, low: u32, high: u32) -> u32 {
        low + (self.bits() % u64::from(high - low + 1)) as u32
    }

    /// A place in something of `count` places.
    pub fn index(&mut self, count: usize) -> usize {
        (self.bits() % count as u64) as usize
    }

    /// True once in `times` times.
    pub fn once_in(&mut self, times: u64) -> bool {
        self.bits().is_multiple_of(times)
    }

    pub fn pick<'a, T>(&mut self, from: &'a [T]) -> &'a T {
        &from[self.index(from.len())]
    }

    /// A number from `low` to `high` whose size in digits is random, so that small ones come as often as large ones.
    pub fn spread(&mut self, low: u32, high: u32) -> u32 {
        let top = high.max(1).ilog2() + 1;
        let bound = 1u64 << self.within(1, top);
        self.within(low, high.min(low.max(bound as u32)))
    }
}
