//! One event on a board.

use crate::raw::call;
use crate::{Fate, Record, Refusal};

/// What happens to a board. Any number may be handed in: one that is out of range is refused.
#[derive(Clone, Copy, Debug, PartialEq, Eq)]
pub enum Event {
    /// The board is powered up. It has its settings until the next power-up.
    PowerUp {
        /// The fitted code, 0 to 15: the buffer holds 8·2^fitted values.
        fitted: u32,
        /// The range code: 0, 1, 2 are 2.5, 5, 10 V.
        range: u32,
        /// The filter code: 0, 1, 2 are none, 10 kHz, 100 kHz.
        filter: u32,
        /// The kit code: 0, 1, 2 are 6, 12, 20 channels.
        kit: u32,
        /// The firmware number, 0 to 4095.
        firmware: u32,
    },
    /// The bus writes a register.
    Write {
        /// Of the register (`register::BCR` and so on).
        offset: u32,
        /// What is written.
        value: u32,
    },
    /// The bus reads a register.
    Read {
        /// Of the register (`register::BCR` and so on).
        offset: u32,
    },
    /// A clock of the rate generator.
    Tick,
    /// An outside clock.
    Outside,
    /// An outside burst trigger.
    Trigger,
    /// The calibration that runs ends well.
    CalibrationPassed,
    /// The calibration that runs fails.
    CalibrationFailed,
    /// The adjustable clock has settled.
    Settled,
}

impl Event {
    /// The event as a row, six numbers: its kind, then its fields, and 0 where the kind has none.
    #[must_use]
    pub fn row(self) -> [u32; 6] {
        match self {
            Event::PowerUp {
                fitted,
                range,
                filter,
                kit,
                firmware,
            } => [1, fitted, range, filter, kit, firmware],
            Event::Write { offset, value } => [2, offset, value, 0, 0, 0],
            Event::Read { offset } => [3, offset, 0, 0, 0, 0],
            Event::Tick => [4, 0, 0, 0, 0, 0],
            Event::Outside => [5, 0, 0, 0, 0, 0],
            Event::Trigger => [6, 0, 0, 0, 0, 0],
            Event::CalibrationPassed => [7, 0, 0, 0, 0, 0],
            Event::CalibrationFailed => [8, 0, 0, 0, 0, 0],
            Event::Settled => [9, 0, 0, 0, 0, 0],
        }
    }
}

/// What the board answers to an event that was done.
#[derive(Clone, Copy, Debug, PartialEq, Eq)]
pub struct Answer {
    /// What a read found; else 0.
    pub register: u32,
    /// How many values a clock moved to channels.
    pub moved: u32,
    /// What became of a value that was loaded.
    pub fate: Fate,
}

/// One event. Where it is refused, the record and the memory are as they were.
///
/// A power-up names its first bad setting: fitted code, range, filter, kit, firmware, and then a memory that is shorter than
/// its depth. Where several things are wrong with another event, the lowest number is told, but 3 before 2. The memory may
/// have any length: one that is too short is refused.
pub fn event(record: &mut Record, memory: &mut [u32], event: Event) -> Result<Answer, Refusal> {
    let mut answer = [0; 4];
    let status = call(&mut record.0, memory, &event.row(), &mut answer);
    assert_eq!(
        status, 0,
        "the lengths and the kind are right by their types"
    );
    let [refusal, register, moved, fate] = answer;
    Refusal::told(refusal)?;
    Ok(Answer {
        register,
        moved,
        fate: Fate::of(fate).expect("an answer has no other fate"),
    })
}
