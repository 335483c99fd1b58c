//! A small random number generator (splitmix64).

/// Random numbers from a seed.
pub struct Random {
    state: u64,
}

impl Random {
    /// The sequence of a seed.
    pub fn new(seed: u64) -> Random {
        Random { state: seed }
    }

    /// The next 64 bits.
    pub fn bits(&mut self) -> u64 {
        self.state = self.state.wrapping_add(0x9e37_79b9_7f4a_7c15);
        let mut z = self.state;
        z = (z ^ (z >> 30)).wrapping_mul(0xbf58_476d_1ce4_e5b9);
        z = (z ^ (z >> 27)).wrapping_mul(0x94d0_49bb_1331_11eb);
        z ^ (z >> 31)
    }

    /// A number from 0 to below `end`.
    pub fn below(&mut self, end: usize) -> usize {
        let number = self.bits() % u64::try_from(end).expect("64 bits");
        usize::try_from(number).expect("below a usize")
    }

    /// A number from `least` to `greatest`, all alike.
    pub fn between(&mut self, least: u16, greatest: u16) -> u16 {
        let above = self.below(usize::from(greatest - least) + 1);
        least + u16::try_from(above).expect("at most the difference of two u16")
    }

    /// A number from `least` to `greatest`, the two edges and their neighbours often.
    pub fn edgy(&mut self, least: u16, greatest: u16) -> u16 {
        match self.below(8) {
            0 => least,
            1 => greatest,
            2 => (least + 1).min(greatest),
            3 => greatest.saturating_sub(1).max(least),
            _ => self.between(least, greatest),
        }
    }

    /// A number of four bytes from `least` to `greatest`, all alike.
    pub fn large(&mut self, least: u32, greatest: u32) -> u32 {
        let above = self.bits() % (u64::from(greatest - least) + 1);
        least + u32::try_from(above).expect("at most the difference of two u32")
    }

    /// One time in `times`.
    pub fn once_in(&mut self, times: usize) -> bool {
        self.below(times) == 0
    }

    /// One of these.
    pub fn pick<'a, T>(&mut self, all: &'a [T]) -> &'a T {
        &all[self.below(all.len())]
    }

    /// These in any order.
    pub fn shuffle<T>(&mut self, all: &mut [T]) {
        (1..all.len()).for_each(|i| all.swap(i, self.below(i + 1)));
    }

    /// So many random bytes.
    pub fn bytes(&mut self, length: usize) -> Vec<u8> {
        let mut bytes = Vec::with_capacity(length + 8);
        while bytes.len() < length {
            bytes.extend(self.bits().to_le_bytes());
        }
        bytes.truncate(length);
        bytes
    }
}
