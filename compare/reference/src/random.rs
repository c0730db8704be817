//! A seeded generator of numbers (splitmix64): the same seed gives the same cases everywhere.

pub struct Random(u64);

impl Random {
    /// For one of many in a run, so that each is decided by the seed and its number alone.
    pub fn numbered(seed: u64, number: u64) -> Random {
        Random((seed << 32) + number)
    }

    pub fn bits(&mut self) -> u32 {
        self.0 = self.0.wrapping_add(0x9E37_79B9_7F4A_7C15);
        let mixed = (self.0 ^ (self.0 >> 30)).wrapping_mul(0xBF58_476D_1CE4_E5B9);
        let mixed = (mixed ^ (mixed >> 27)).wrapping_mul(0x94D0_49BB_1331_11EB);
        ((mixed ^ (mixed >> 31)) >> 32) as u32
    }

    /// The high part of a product is as even as the bits and never reaches the end.
    pub fn below(&mut self, end: u32) -> u32 {
        ((u64::from(self.bits()) * u64::from(end)) >> 32) as u32
    }

    pub fn between(&mut self, least: u32, greatest: u32) -> u32 {
        least + self.below(greatest - least + 1)
    }

    /// Also of numbers that do not fit 32 bits; as even as 64 bits divide.
    pub fn from_to(&mut self, least: u64, greatest: u64) -> u64 {
        let bits = u64::from(self.bits()) << 32 | u64::from(self.bits());
        least + bits % (greatest - least + 1)
    }

    pub fn one_in(&mut self, many: u32) -> bool {
        self.below(many) == 0
    }

    pub fn place(&mut self, length: usize) -> usize {
        self.below(length as u32) as usize
    }

    pub fn any<T: Copy>(&mut self, values: &[T]) -> T {
        values[self.place(values.len())]
    }
}
