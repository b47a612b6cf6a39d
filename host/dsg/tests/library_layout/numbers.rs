//! Numbers to choose, the same on every run (splitmix64).

pub struct Numbers(pub u64);

impl Numbers {
    pub fn word(&mut self) -> u64 {
        self.0 = self.0.wrapping_add(0x9E37_79B9_7F4A_7C15);
        let z = (self.0 ^ self.0 >> 30).wrapping_mul(0xBF58_476D_1CE4_E5B9);
        let z = (z ^ z >> 27).wrapping_mul(0x94D0_49BB_1331_11EB);
        z ^ z >> 31
    }

    /// A number from `low` to `high`, both included.
    pub fn between(&mut self, low: u64, high: u64) -> u64 {
        low + self.word() % (high + 1 - low)
    }

    /// How many places of a list are used: often all.
    pub fn count(&mut self, room: usize) -> usize {
        let some = self.between(0, room as u64) as usize;
        [room, some][self.word() as usize % 2]
    }

    pub fn byte(&mut self) -> u8 {
        self.word() as u8
    }

    pub fn pair(&mut self) -> u16 {
        self.word() as u16
    }

    pub fn long(&mut self) -> u32 {
        self.word() as u32
    }

    /// The number of six bytes.
    pub fn address(&mut self) -> u64 {
        self.word() >> 16
    }

    pub fn shuffle<T>(&mut self, items: &mut [T]) {
        for end in (1..items.len()).rev() {
            items.swap(end, self.between(0, end as u64) as usize);
        }
    }
}
