//! A small deterministic random generator (splitmix64).

pub struct Random {
    state: u64,
}

impl Random {
    pub fn new(seed: u64) -> Random {
        Random { state: seed }
    }

    /// Any 64-bit number.
    pub fn word(&mut self) -> u64 {
        self.state = self.state.wrapping_add(0x9e37_79b9_7f4a_7c15);
        let mut word = self.state;
        word = (word ^ (word >> 30)).wrapping_mul(0xbf58_476d_1ce4_e5b9);
        word = (word ^ (word >> 27)).wrapping_mul(0x94d0_49bb_1331_11eb);
        word ^ (word >> 31)
    }

    /// 0 to `count` − 1.
    pub fn below(&mut self, count: usize) -> usize {
        (self.word() % count as u64) as usize
    }

    pub fn one_in(&mut self, count: usize) -> bool {
        self.below(count) == 0
    }

    /// `least` to `most`, evenly.
    pub fn between(&mut self, least: i128, most: i128) -> i128 {
        least + i128::from(self.word()) % (most - least + 1)
    }

    /// `least` to `most`, often at or near an end.
    pub fn often_extreme(&mut self, least: i128, most: i128) -> i128 {
        match self.below(6) {
            0 => least,
            1 => most,
            2 => self.between(least, most.min(least + 200)),
            3 => self.between(least.max(most - 200), most),
            _ => self.between(least, most),
        }
    }

    pub fn pick<T: Copy>(&mut self, choices: &[T]) -> T {
        choices[self.below(choices.len())]
    }

    pub fn bytes(&mut self, count: usize) -> Vec<u8> {
        (0..count).map(|_| self.word() as u8).collect()
    }
}
