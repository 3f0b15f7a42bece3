//! A small seeded generator (splitmix64).

pub struct Rng(u64);

fn mix(mut z: u64) -> u64 {
    z = (z ^ (z >> 30)).wrapping_mul(0xBF58_476D_1CE4_E5B9);
    z = (z ^ (z >> 27)).wrapping_mul(0x94D0_49BB_1331_11EB);
    z ^ (z >> 31)
}

impl Rng {
    /// Each (seed, stream) has its own sequence.
    pub fn new(seed: u64, stream: u64) -> Rng {
        let start = mix(seed.wrapping_add(0x9E37_79B9_7F4A_7C15));
        Rng(mix(start ^ mix(stream.wrapping_add(0x1234_5678_9ABC_DEF1))))
    }

    /// Another sequence, for a part of the work.
    pub fn fork(&mut self) -> Rng {
        Rng::new(self.word() as u64, self.word() as u64)
    }

    pub fn word(&mut self) -> u32 {
        self.0 = self.0.wrapping_add(0x9E37_79B9_7F4A_7C15);
        (mix(self.0) >> 32) as u32
    }

    /// 0 to n - 1.
    pub fn below(&mut self, n: u32) -> u32 {
        ((self.word() as u64 * n as u64) >> 32) as u32
    }

    /// True n times of `of`.
    pub fn chance(&mut self, n: u32, of: u32) -> bool {
        self.below(of) < n
    }

    pub fn flag(&mut self) -> u32 {
        self.word() & 1
    }

    pub fn pick<T: Copy>(&mut self, from: &[T]) -> T {
        from[self.below(from.len() as u32) as usize]
    }
}
