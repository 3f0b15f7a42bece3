//! A call in words.

use super::call::Call;
use super::order::LARGEST_GROUP;
use super::play::Play;
use compare::words::words;

/// So many groups at most.
pub fn call(call: &Call, most: usize) -> String {
    let order = &call.order;
    let numbers = order.recording.len();
    let mut text = format!("recording: {numbers} numbers\n");
    // A line for each group, where groups can be told.
    let line = order.channels.clamp(1, LARGEST_GROUP) as usize;
    for (group, numbers) in order.recording.chunks(line).take(most).enumerate() {
        let hex: String = numbers.iter().map(|n| format!(" {n:04X}")).collect();
        text += &format!("  {group:3}.{hex}\n");
    }
    let more = numbers.div_ceil(line).saturating_sub(most);
    if more > 0 {
        text += &format!("       and {more} more lines: --only prints them all\n");
    }
    text += &format!("cut: {}\n", order.words());
    text += &format!("output: {} bytes, place {}\n", call.room, call.place);
    if let Some(play) = &call.play {
        text += &played(play, play.ticks(order));
    }
    text
}

/// How it is played.
fn played(play: &Play, ticks: usize) -> String {
    let mut text = format!("played after: {}\n", words(&play.power_up));
    for event in play.settings() {
        text += &format!("  then {}\n", words(&event));
    }
    text + &format!("  then ticks: {ticks}\n")
}
