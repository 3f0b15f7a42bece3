//! What is asked: the size code of the smallest size that plays.

use super::answer::Answer;
use super::files::{self, Sort};
use super::tally::Tally;
use compare::file::MEMORY;
use compare::lending::SHORT;
use compare::question::Question;
use compare::rng::Rng;

pub struct Sizes;

impl Question for Sizes {
    type Sort = Sort;
    type Number = u32;
    const NUMBERS: usize = 1;
    type Said = Answer;
    type Tally = Tally;

    /// No size code.
    const GUARD: u32 = 0xBAD_C0DE;
    const BESIDE: &'static str = "numbers beside the code";
    const LENDING: u64 = 0x1E57_512E;
    /// By one entry, and the depths of fitted codes 12 to 15.
    const LONGER: &'static [usize] = &[MEMORY + 1, 2 * MEMORY, 4 * MEMORY, 8 * MEMORY, 16 * MEMORY];

    fn choose(seed: u64, index: u64) -> (Sort, Vec<u8>) {
        files::choose(seed, index)
    }

    fn memory(sort: Sort, rng: &mut Rng) -> usize {
        let any = match rng.below(512) {
            0..=63 => rng.pick(&SHORT),
            // By one entry, and by so many that fitted code 12 is accepted.
            64 => rng.pick(&[MEMORY + 1, 2 * MEMORY]),
            _ => MEMORY,
        };
        sort.memory().unwrap_or(any)
    }

    fn model(bytes: &[u8], memory: &mut [u32]) -> Answer {
        let (refusal, code) = second::smallest_size(bytes, memory);
        Answer { refusal, code }
    }

    fn ours(bytes: &[u8], memory: &mut [u32], numbers: &mut [u32]) -> Answer {
        let refusal = nergutsai::smallest_size_call(bytes, memory, &mut numbers[0]);
        let code = numbers[0];
        Answer { refusal, code }
    }
}
