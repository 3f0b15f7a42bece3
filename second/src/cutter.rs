//! The cutter, request 2026-07: "Given a recording as a lent slice of 16-bit
//! numbers, group after group, with the number of channels in a group, cut groups
//! a to b (from 0, both taken) and a chosen subset of channels, and write, as
//! 2026-01 does, the session that loads them". The numbers are chosen, events are
//! made of them, and the writer of 2026-01 writes these.

use crate::clock::ascending;
use crate::event::Event;
use crate::queue::EOF;
use crate::refuse;
use crate::rows::row;
use crate::writer::{write_session, Written};

/// "1 to 20"
const LARGEST_GROUP: u32 = 20;

/// Cuts the groups `first` to `last`, both taken, out of a recording with so many
/// `channels` in a group, and of these the channels of `mask` (bit k is channel
/// k, as in 04h). The session that loads them is written into `out`, from `place`
/// on. "Refusals, in order: 22 channels in a group not 1 to 20, or length no whole
/// number of groups; 23 empty choice, a channel outside the group, or groups out
/// of range or reversed; then 20 and 21."
pub fn cut(
    recording: &[u16],
    channels: u32,
    first: u64,
    last: u64,
    mask: u32,
    out: &mut [u8],
    place: usize,
) -> Written {
    match chosen(recording, channels, first, last, mask) {
        // "as 2026-01 does": "each answers place 0 and writes no byte"
        Err(refusal) => Written { refusal, place: 0 },
        // "then 20 and 21": these two are the writer's. Its others are about
        // events that are not made here.
        Ok(numbers) => write_session(&events(mask, &numbers), out, place),
    }
}

/// "the chosen numbers in recording order", at least one, or the refusal.
fn chosen(
    recording: &[u16],
    channels: u32,
    first: u64,
    last: u64,
    mask: u32,
) -> Result<Vec<u16>, u32> {
    // "22 channels in a group not 1 to 20"
    if !(1..=LARGEST_GROUP).contains(&channels) {
        return Err(refuse::GROUPS);
    }
    // "or length no whole number of groups"
    let groups = recording.chunks_exact(channels as usize);
    if !groups.remainder().is_empty() {
        return Err(refuse::GROUPS);
    }
    // "23 empty choice, a channel outside the group"
    if mask == 0 || mask >> channels != 0 {
        return Err(refuse::CHOICE);
    }
    // "or groups out of range or reversed"
    if last >= groups.len() as u64 || first > last {
        return Err(refuse::CHOICE);
    }

    // "groups a to b (from 0, both taken)". Both are below the number of groups,
    // which is a usize: nothing is lost here, and nothing wraps.
    let (before, taken) = (first as usize, (last - first) as usize + 1);
    let mut numbers = Vec::new();
    for group in groups.skip(before).take(taken) {
        // "group after group in ascending channels"
        for channel in ascending(mask) {
            numbers.push(group[channel as usize]);
        }
    }
    Ok(numbers)
}

/// The events that load the numbers, six numbers each.
fn events(mask: u32, numbers: &[u16]) -> Vec<u32> {
    let write = |offset, value| row(&Event::Write { offset, value });
    // "one write to 04h"
    let mut rows = Vec::from(write(0x04, mask));
    // "then one to 18h for each value"
    for (i, number) in numbers.iter().enumerate() {
        // "EOF on the very last and on no other"
        let mark = if i + 1 == numbers.len() { EOF } else { 0 };
        rows.extend(write(0x18, u32::from(*number) | mark));
    }
    rows
}
