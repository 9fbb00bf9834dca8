//! A small repeatable source of random numbers (SplitMix64).

#[derive(Debug, Clone)]
pub struct Random {
    state: u64,
}

impl Random {
    /// The source for case `i` of a seed.
    pub fn new(seed: u64, i: u64) -> Random {
        let mut random = Random { state: seed };
        let mixed = random.next();
        random.state = mixed ^ i.wrapping_mul(0xD134_2543_DE82_EF95);
        random.next();
        random
    }

    pub fn next(&mut self) -> u64 {
        self.state = self.state.wrapping_add(0x9E37_79B9_7F4A_7C15);
        let mut z = self.state;
        z = (z ^ (z >> 30)).wrapping_mul(0xBF58_476D_1CE4_E5B9);
        z = (z ^ (z >> 27)).wrapping_mul(0x94D0_49BB_1331_11EB);
        z ^ (z >> 31)
    }

    /// A number below `end`, which is not 0.
    pub fn below(&mut self, end: usize) -> usize {
        (self.next() % end as u64) as usize
    }

    /// A number from `low` to `high`, both included.
    pub fn between(&mut self, low: usize, high: usize) -> usize {
        low + self.below(high - low + 1)
    }

    /// True in `percent` of 100 calls.
    pub fn chance(&mut self, percent: usize) -> bool {
        self.below(100) < percent
    }

    pub fn byte(&mut self) -> u8 {
        self.next() as u8
    }

    pub fn word(&mut self) -> u32 {
        self.next() as u32
    }

    pub fn pick<'l, T>(&mut self, list: &'l [T]) -> &'l T {
        &list[self.below(list.len())]
    }

    /// One of the words of a list, which spaces separate.
    pub fn word_of(&mut self, list: &'static str) -> &'static [u8] {
        let count = list.split(' ').count();
        let word = list.split(' ').nth(self.below(count));
        word.unwrap_or("").as_bytes()
    }

    pub fn shuffle<T>(&mut self, list: &mut [T]) {
        for i in (1..list.len()).rev() {
            list.swap(i, self.below(i + 1));
        }
    }
}
