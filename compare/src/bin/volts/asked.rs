//! What is asked: the lowest, highest and last volts of each channel.

use super::files::{self, Sort};
use super::table::{Table, NUMBERS};
use super::tally::Tally;
use compare::file::MEMORY;
use compare::lending::SHORT;
use compare::question::Question;
use compare::rng::Rng;

pub struct Volts;

impl Question for Volts {
    type Sort = Sort;
    type Number = f32;
    const NUMBERS: usize = NUMBERS;
    type Said = Table;
    type Tally = Tally;

    /// No volts of a level.
    const GUARD: f32 = 123.456;
    const BESIDE: &'static str = "numbers beside the sixty";
    const LENDING: u64 = 0x1E57_70A7;
    const LONGER: &'static [usize] = &[];

    fn choose(seed: u64, index: u64) -> (Sort, Vec<u8>) {
        files::choose(seed, index)
    }

    fn memory(_: Sort, rng: &mut Rng) -> usize {
        if rng.chance(1, 8) {
            rng.pick(&SHORT)
        } else {
            MEMORY
        }
    }

    fn model(bytes: &[u8], memory: &mut [u32]) -> Table {
        let (refusal, channels) = second::volts(bytes, memory);
        let mut numbers = [0.0; NUMBERS];
        for (three, channel) in numbers.chunks_exact_mut(3).zip(channels) {
            three.copy_from_slice(&[channel.lowest, channel.highest, channel.last]);
        }
        Table { refusal, numbers }
    }

    fn ours(bytes: &[u8], memory: &mut [u32], numbers: &mut [f32]) -> Table {
        let sixty = numbers.first_chunk_mut().expect("so many are lent");
        let refusal = nergutsai::volts_call(bytes, memory, sixty);
        let numbers = *sixty;
        Table { refusal, numbers }
    }
}
