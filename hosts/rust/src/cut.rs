//! Extracts, cut out of a recording.

use crate::raw::cut_call;
use crate::Refusal;

/// What is cut out of a recording. Any numbers may be handed in: what is wrong with them is told by its refusal.
#[derive(Clone, Copy, Debug, PartialEq, Eq)]
pub struct Order<'a> {
    /// The numbers, group after group.
    pub recording: &'a [u16],
    /// How many channels a group has, 1 to 20.
    pub channels: u32,
    /// The first group that is taken, from 0.
    pub first: usize,
    /// The last group that is taken.
    pub last: usize,
    /// The chosen channels: bit k is channel k, which plays on output k.
    pub mask: u32,
}

/// The room that `cut` asks for so many groups with so many chosen channels.
#[must_use]
pub fn cut_room(groups: usize, chosen: usize) -> usize {
    1 + 8 * (1 + groups * chosen)
}

/// The session that loads the chosen numbers of a recording, into the output from the place on: one write of the mask
/// to 04h, then one to 18h for each number, group after group in ascending channels, the end-of-frame mark on the very
/// last. Answers the place after its last byte, counted from the output's start; bytes outside of it do not change, and
/// none at all where it is refused. The numbers are copied as they are.
///
/// There is no power-up in it and no clock: its bytes from the second on stand behind a power-up's in a session file,
/// and the writes and clocks that play it behind them (examples/extract.rs). On a board that has the chosen channels
/// and a depth of at least so many values all are stored, and channel k of each group plays on output k.
///
/// The recording is told before what is chosen of it, then the place, then the room.
pub fn cut(order: &Order, output: &mut [u8], place: usize) -> Result<usize, Refusal> {
    let mut end = 0;
    Refusal::told(cut_call(order, output, place, &mut end))?;
    Ok(end)
}
