//! Numbers drawn from a seed (splitmix64): the same seed gives the same file.

pub struct Random {
    state: u64,
}

impl Random {
    pub fn new(seed: u64) -> Random {
        Random { state: seed }
    }

    fn next(&mut self) -> u64 {
        self.state = self.state.wrapping_add(0x9E37_79B9_7F4A_7C15);
        let mut mixed = self.state;
        mixed = (mixed ^ (mixed >> 30)).wrapping_mul(0xBF58_476D_1CE4_E5B9);
        mixed = (mixed ^ (mixed >> 27)).wrapping_mul(0x94D0_49BB_1331_11EB);
        mixed ^ (mixed >> 31)
    }

    /// A number from low to high, both included.
    pub fn between(&mut self, low: u32, high: u32) -> u32 {
        let choices = u64::from(high.max(low) - low) + 1;
        low + (self.next() % choices) as u32
    }

    pub fn any(&mut self) -> u32 {
        self.next() as u32
    }

    pub fn byte(&mut self) -> u8 {
        self.next() as u8
    }

    /// True in so many of a hundred draws.
    pub fn percent(&mut self, share: u32) -> bool {
        self.between(0, 99) < share
    }

    pub fn pick<T: Copy>(&mut self, choices: &[T]) -> T {
        choices[self.between(0, choices.len() as u32 - 1) as usize]
    }
}
