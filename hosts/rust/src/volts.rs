//! The volts of a session file.

use crate::raw::volts_call;
use crate::Refusal;

/// The volts of one channel over a session. They are exact: times 65,536 each is the level less 32,768, times 5, 10 or
/// 20 for range 0, 1, 2. Zero is positive zero.
#[derive(Clone, Copy, Debug, PartialEq)]
pub struct Extremes {
    /// Never above 0: a power-up puts every channel to 0 volts, and that counts.
    pub lowest: f32,
    /// Never below 0.
    pub highest: f32,
    /// After the last event.
    pub last: f32,
}

/// The lowest, the highest and the last volts of each of the twenty channels over a session file, on a board with this
/// sample memory. The levels right after an accepted power-up count, and those after each later event; another accepted
/// power-up starts afresh. The memory is as the run left it, also where the session is refused. A file may have any
/// length. What is wrong with the file is told before a missing power-up.
///
/// A protection that is wired by these numbers must bear more while the board calibrates: its manual has the outputs
/// fluctuate between zero and positive full scale then, and that is no level of the model.
pub fn volts(file: &[u8], memory: &mut [u32]) -> Result<[Extremes; 20], Refusal> {
    let mut numbers = [0.0; 60];
    Refusal::told(volts_call(file, memory, &mut numbers))?;
    Ok(std::array::from_fn(|channel| Extremes {
        lowest: numbers[3 * channel],
        highest: numbers[3 * channel + 1],
        last: numbers[3 * channel + 2],
    }))
}
