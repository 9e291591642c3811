//! The source of everything random here: splitmix64, so that one seed gives the same questions on every machine.

pub struct Generator {
    state: u64,
}

impl Generator {
    /// Each stream of a seed is a sequence of its own, so that no routine's questions depend on another's.
    pub fn new(seed: u64, stream: u64) -> Generator {
        let mut of_stream = Generator { state: stream };
        let offset = of_stream.next();
        Generator { state: seed.wrapping_add(offset) }
    }

    pub fn next(&mut self) -> u64 {
        self.state = self.state.wrapping_add(0x9e37_79b9_7f4a_7c15);
        let mut z = self.state;
        z = (z ^ (z >> 30)).wrapping_mul(0xbf58_476d_1ce4_e5b9);
        z = (z ^ (z >> 27)).wrapping_mul(0x94d0_49bb_1331_11eb);
        z ^ (z >> 31)
    }

    /// A number below `bound`, which is not 0.
    pub fn below(&mut self, bound: usize) -> usize {
        ((u128::from(self.next()) * bound as u128) >> 64) as usize
    }

    /// A number from `first` to `last`, both among them.
    pub fn between(&mut self, first: usize, last: usize) -> usize {
        first + self.below(last - first + 1)
    }

    pub fn pick<T: Copy>(&mut self, items: &[T]) -> T {
        items[self.below(items.len())]
    }

    /// True once in `times`.
    pub fn once_in(&mut self, times: usize) -> bool {
        self.below(times) == 0
    }

    pub fn sixteen_bits(&mut self) -> u16 {
        self.next() as u16
    }

    /// One of the numbers within `reach` of this one, kept to 16 bits.
    pub fn near(&mut self, number: usize, reach: usize) -> u16 {
        let moved = (number + self.below(2 * reach + 1)).saturating_sub(reach);
        moved.min(65535) as u16
    }
}
