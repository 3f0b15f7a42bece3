//! How an order is chosen: mostly a good one, else with up to three faults.

use super::order::{Order, LARGEST_GROUP};
use super::recording;
use compare::power_ups::DEEPEST;
use compare::rng::Rng;

/// Numbers of channels that no group has.
pub const NO_CHANNELS: [u32; 6] = [0, 21, 32, 33, 1 << 31, u32::MAX];
/// A recording of so many numbers at most is made for such groups.
const REMADE: usize = 20_000;

/// One order in so many goes by its values.
const MEASURED: u32 = 40;
/// So many make a session of 65,529 bytes; with one more it is longer than what
/// `rehearse` reads.
const LISTED: u32 = 8_190;

/// What can be wrong with an order.
#[derive(Clone, Copy)]
enum Fault {
    /// "22 channels in a group not 1 to 20"
    Channels,
    /// "or length no whole number of groups"
    Length,
    /// "23 empty choice"
    Empty,
    /// "a channel outside the group"
    Outside,
    /// "or groups out of range"
    Past,
    /// "or reversed"
    Reversed,
}

const FAULTS: [Fault; 6] = [
    Fault::Channels,
    Fault::Length,
    Fault::Empty,
    Fault::Outside,
    Fault::Past,
    Fault::Reversed,
];

pub fn order(rng: &mut Rng) -> Order {
    let any = 1 + rng.below(LARGEST_GROUP);
    let channels = rng.pick(&[1, LARGEST_GROUP, any, any, any, any]);
    let mut mask = subset(channels, rng);
    let measured = rng.chance(1, MEASURED);
    let groups = if measured {
        by_values(&mut mask, rng)
    } else {
        some(rng)
    };
    let (first, last) = if measured && rng.chance(1, 2) {
        (0, groups - 1)
    } else {
        stretch(groups, rng)
    };
    let mut order = Order {
        recording: recording::choose(groups * channels as usize, rng),
        channels,
        first,
        last,
        mask,
    };
    for _ in 0..rng.pick(&[0, 0, 0, 0, 0, 0, 1, 1, 2, 3]) {
        spoil(&mut order, rng);
    }
    order
}

/// Chosen channels: all, one, or some.
fn subset(channels: u32, rng: &mut Rng) -> u32 {
    let all = u32::MAX >> (u32::BITS - channels);
    let one = 1 << rng.below(channels);
    let some = rng.word() & all | one;
    let few = rng.word() & some | one;
    rng.pick(&[all, one, some, some, few])
}

/// How many groups, mostly; with none the recording is empty.
fn some(rng: &mut Rng) -> usize {
    let groups = match rng.below(40) {
        0 => 0,
        1..=4 => 1,
        5..=34 => 2 + rng.below(12),
        _ => rng.below(120),
    };
    groups as usize
}

/// How many groups for so many values: as many as a buffer holds, about as many as
/// the longest session that `rehearse` reads has, more than the memory holds, or any.
/// Of the chosen channels some are left out, so that a depth can be filled to the last
/// value.
fn by_values(mask: &mut u32, rng: &mut Rng) -> usize {
    while !mask.count_ones().is_power_of_two() {
        *mask &= *mask - 1;
    }
    let depth = 8 << rng.below(1 + DEEPEST);
    let deepest = 8 << DEEPEST;
    let any = rng.below(deepest);
    let values = rng.pick(&[depth, depth, LISTED, LISTED + 1, deepest + 16, any]);
    1.max(values / mask.count_ones()) as usize
}

/// The first group and the last.
fn stretch(groups: usize, rng: &mut Rng) -> (usize, usize) {
    let end = groups.saturating_sub(1);
    let mut group = || rng.below(groups as u32) as usize;
    let (one, other) = (group(), group());
    let some = (one.min(other), one.max(other));
    rng.pick(&[
        (0, end),
        (0, end),
        (0, one),
        (one, end),
        (one, one),
        some,
        some,
    ])
}

fn spoil(order: &mut Order, rng: &mut Rng) {
    let groups = order.groups();
    let (first, last) = (order.first, order.last);
    match rng.pick(&FAULTS) {
        Fault::Channels => {
            let other = rng.pick(&NO_CHANNELS);
            // A good number, but in the low byte alone.
            let low_byte = 0x100 | order.channels;
            order.channels = rng.pick(&[other, other, other, low_byte]);
            // As many groups of so many channels: nothing else is wrong.
            let numbers = groups * order.channels as usize;
            if numbers <= REMADE && rng.chance(1, 2) {
                order.recording = recording::choose(numbers, rng);
            }
        }
        Fault::Length => spoil_length(order, rng),
        Fault::Empty => order.mask = 0,
        Fault::Outside => {
            let next = 1 << order.channels.min(31);
            let high = 1 << (20 + rng.below(12));
            let mask = order.mask;
            order.mask = rng.pick(&[mask | next, mask | next, next, mask | high, high, u32::MAX]);
        }
        Fault::Past => {
            // So far that 32 bits, or the numbers up to the group, wrap round.
            let far = 1 << rng.pick(&[32, 60, 61, 62, 63]);
            let all = usize::MAX;
            (order.first, order.last) = rng.pick(&[
                (first, groups),
                (first, groups),
                (groups, groups),
                (first, all),
                (all, all),
                (first, last.wrapping_add(far)),
                (first.wrapping_add(far), last.wrapping_add(far)),
            ]);
        }
        Fault::Reversed => {
            let after = last.wrapping_add(1);
            let end = groups.saturating_sub(1);
            (order.first, order.last) = rng.pick(&[
                (after, last),
                (after, last),
                (last, first),
                (end, 0),
                (groups, end),
                (usize::MAX, last),
                (first.wrapping_add(1 << 32), last),
            ]);
        }
    }
}

/// A part of a group more, or less. A group of one channel has no part.
fn spoil_length(order: &mut Order, rng: &mut Rng) {
    if !(2..=LARGEST_GROUP).contains(&order.channels) {
        return;
    }
    let part = 1 + rng.below(order.channels - 1) as usize;
    match order.recording.len().checked_sub(part) {
        Some(fewer) if rng.chance(1, 2) => order.recording.truncate(fewer),
        _ => order.recording.extend(recording::choose(part, rng)),
    }
}
