//! Random numbers that a seed repeats.

/// The generator SplitMix64.
#[derive(Clone, Debug)]
pub struct Random {
    state: u64,
}

impl Random {
    pub fn new(seed: u64) -> Random {
        Random { state: seed }
    }

    /// Any number of 64 bits.
    pub fn number(&mut self) -> u64 {
        self.state = self.state.wrapping_add(0x9e37_79b9_7f4a_7c15);
        let mixed = (self.state ^ (self.state >> 30)).wrapping_mul(0xbf58_476d_1ce4_e5b9);
        let mixed = (mixed ^ (mixed >> 27)).wrapping_mul(0x94d0_49bb_1331_11eb);
        mixed ^ (mixed >> 31)
    }

    /// A number below `count`, which is not 0.
    pub fn below(&mut self, count: usize) -> usize {
        (self.number() % count as u64) as usize
    }

    /// One of the numbers below `count` that are wanted, if there is one.
    pub fn below_where(
        &mut self,
        count: usize,
        wanted: impl FnMut(&usize) -> bool,
    ) -> Option<usize> {
        let numbers: Vec<usize> = (0..count).filter(wanted).collect();
        (!numbers.is_empty()).then(|| self.pick(&numbers))
    }

    /// A number from `least` to `greatest`.
    pub fn between(&mut self, least: u64, greatest: u64) -> u64 {
        least + self.number() % (greatest - least + 1)
    }

    /// Whether something happens that happens once in `count` times.
    pub fn one_in(&mut self, count: usize) -> bool {
        self.below(count) == 0
    }

    pub fn pick<Value: Copy>(&mut self, values: &[Value]) -> Value {
        values[self.below(values.len())]
    }

    pub fn shuffle<Value>(&mut self, values: &mut [Value]) {
        for end in (1..values.len()).rev() {
            values.swap(end, self.below(end + 1));
        }
    }

    pub fn bytes(&mut self, length: usize) -> Vec<u8> {
        (0..length).map(|_| self.number() as u8).collect()
    }
}
