//! The sample memory that is lent with a session file.

use crate::counts::Counts;
use crate::file::MEMORY;
use crate::rng::Rng;

/// Short memories: none at all, and about the depths of 8, 16 and 32 values.
pub const SHORT: [usize; 12] = [0, 1, 7, 8, 9, 15, 16, 17, 31, 32, 33, 1000];

#[derive(Clone, Copy)]
pub struct Lending {
    /// How many entries the memory has.
    pub length: usize,
    /// It is full of junk: the stream of this number. Else it is as the last
    /// session left it, if that one's was as long.
    pub anew: bool,
    pub junk: u32,
}

impl Lending {
    pub fn new(length: usize, rng: &mut Rng) -> Lending {
        Lending {
            length,
            anew: rng.chance(1, 32),
            junk: rng.word(),
        }
    }

    /// Counts it among the lengths that there are: the short ones, the usual
    /// one, and these.
    pub fn count(self, longer: &[usize], junk: bool, counts: &mut Counts) {
        counts.begin();
        for length in SHORT.iter().chain(&[MEMORY]).chain(longer) {
            let name = format_args!("of length {length}");
            counts.hit(name, self.length == *length);
        }
        counts.hit(format_args!("full of junk"), junk);
        counts.hit(format_args!("as the last session left it"), !junk);
    }
}
