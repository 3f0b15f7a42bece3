//! Random numbers. What is made of them stands in each test file.

/// A small generator (Marsaglia's xorshift), so that no crate is needed.
pub struct Dice(pub u64);
impl Dice {
    pub fn roll(&mut self, sides: u32) -> u32 {
        self.0 ^= self.0 << 13;
        self.0 ^= self.0 >> 7;
        self.0 ^= self.0 << 17;
        ((self.0 >> 32) % u64::from(sides)) as u32
    }
    pub fn any(&mut self) -> u32 {
        self.roll(65_536) << 16 | self.roll(65_536)
    }
}
