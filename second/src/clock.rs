//! Clocks and triggers.

use crate::queue::{Queue, EOF};
use crate::record::Record;

/// "A generator tick is accepted when clocking is enabled and (EXTERNAL = 0 or
/// ALT = 1)." Answers the values moved.
#[inline(always)]
pub(crate) fn tick(record: &mut Record, memory: &mut [u32]) -> u32 {
    // "While calibrating, no clock or trigger is accepted."
    if record.calibrating {
        return 0;
    }
    if record.enabled && (!record.external || record.alt) {
        return accepted(record, memory);
    }
    0
}

/// "An outside or software clock is accepted when enabled, EXTERNAL = 1,
/// ALT = 0 and D6 = 1." Answers the values moved.
#[inline(always)]
pub(crate) fn outside(record: &mut Record, memory: &mut [u32]) -> u32 {
    // "While calibrating, no clock or trigger is accepted." (D6 says so too.)
    if record.calibrating {
        return 0;
    }
    if record.enabled && record.external && !record.alt && record.clock_ready() {
        return accepted(record, memory);
    }
    0
}

/// "An outside trigger starts a burst when BCR D0 = 1, BCR D6 = 0, and there is
/// no burst or calibration."
pub(crate) fn trigger(record: &mut Record) {
    if record.bursts && !record.barred && !record.burst && !record.calibrating {
        record.burst = true;
        record.software = false;
    }
}

/// An accepted clock. Answers the values moved.
fn accepted(record: &mut Record, memory: &mut [u32]) -> u32 {
    // "An accepted clock moves nothing if the mask is 0"
    if record.mask == 0 {
        return 0;
    }
    // "or if bursts are enabled with none in progress."
    if record.bursts && !record.burst {
        return 0;
    }
    let closed_before = record.closed();
    let mut queue = Queue::of(record);
    let (moved, marks) = if record.simultaneous {
        simultaneous(record, memory, &mut queue, closed_before)
    } else {
        sequential(record, memory, &mut queue, closed_before)
    };
    queue.put_back(record);
    // "Then, if any carried EOF, once:"
    if marks & EOF != 0 {
        end_of_frame(record);
    }
    moved
}

/// "sequential mode moves one value, if any, to the lowest active channel at or
/// above the cursor, else to the lowest active one; the cursor becomes that
/// channel + 1." Answers the number of values moved, and the value.
fn sequential(
    record: &mut Record,
    memory: &mut [u32],
    queue: &mut Queue,
    closed_before: bool,
) -> (u32, u32) {
    if record.count == 0 {
        return (0, 0);
    }
    let above = record.mask >> record.cursor;
    let channel = if above != 0 {
        record.cursor + above.trailing_zeros()
    } else {
        record.mask.trailing_zeros()
    };
    let value = move_oldest(memory, queue, closed_before);
    play(record, channel, value);
    record.cursor = channel + 1;
    (1, value)
}

/// "Simultaneous mode moves as many values as the mask has ones, ascending,
/// only if that many are stored; the cursor stays 0." Answers the number of
/// values moved, and all of them or-ed: their marks.
fn simultaneous(
    record: &mut Record,
    memory: &mut [u32],
    queue: &mut Queue,
    closed_before: bool,
) -> (u32, u32) {
    let ones = record.mask.count_ones();
    if record.count < ones {
        return (0, 0);
    }
    let mut marks = 0;
    for channel in ascending(record.mask) {
        let value = move_oldest(memory, queue, closed_before);
        play(record, channel, value);
        marks |= value;
    }
    (ones, marks)
}

/// The channels of a mask, ascending.
pub(crate) fn ascending(mut mask: u32) -> impl Iterator<Item = u32> {
    std::iter::from_fn(move || {
        if mask == 0 {
            return None;
        }
        let channel = mask.trailing_zeros();
        mask &= mask - 1;
        Some(channel)
    })
}

/// Moves the oldest value and answers it. "All values of one clock recirculate
/// if the buffer was closed before it, else they are discarded." "A recirculated
/// value leaves and is then stored.": behind the others, so never over one that
/// this clock has still to move.
fn move_oldest(memory: &mut [u32], queue: &mut Queue, closed_before: bool) -> u32 {
    let value = queue.oldest(memory);
    queue.leave();
    if closed_before {
        queue.store(memory, value);
    }
    value
}

/// "a burst ends; opened becomes closed; else pending becomes opened."
fn end_of_frame(record: &mut Record) {
    record.end_burst();
    if record.opened {
        record.opened = false;
    } else if record.pending {
        record.pending = false;
        record.opened = true;
    }
}

/// A value at its channel. "Other channels hold."
fn play(record: &mut Record, channel: u32, value: u32) {
    record.levels[channel as usize] = level(record.binary, value);
}

/// "Offset binary makes the level equal the data; two's complement adds 8000h
/// mod 10000h."
fn level(binary: bool, value: u32) -> u16 {
    let data = value & 0xFFFF;
    if binary {
        data as u16
    } else {
        ((data + 0x8000) % 0x10000) as u16
    }
}
