//! The stored values of the board, for bench.rs and cutter.rs.

use super::bench::Bench;

impl Bench {
    /// The stored values, the oldest first.
    pub fn stored(&self) -> Vec<u32> {
        let r = &self.record;
        (0..r.count)
            .map(|i| self.memory[((r.first + i) % (8 << r.fitted)) as usize] & 0x1_FFFF)
            .collect()
    }
}
