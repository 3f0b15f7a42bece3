//! Makes a call that differs shorter: drops events, many at once and then one at
//! a time, while it still differs.

use super::call::Call;
use super::rows::{session, ROW};

pub fn shorten(call: &Call, mut tries: u32, mut differs: impl FnMut(&Call) -> bool) -> Call {
    let mut best = call.clone();
    loop {
        let length = best.rows.len();
        let mut chunk = length / ROW;
        while chunk > 0 {
            drop_chunks(&mut best, chunk, &mut tries, &mut differs);
            chunk /= 2;
        }
        if best.rows.len() == length || tries == 0 {
            break;
        }
    }
    to_the_start(&mut best, &mut differs);
    best
}

/// Drops so many events at once, wherever it still differs without them: from an
/// output that is as much too long or too short as before, or that is as long.
fn drop_chunks(
    best: &mut Call,
    chunk: usize,
    tries: &mut u32,
    differs: &mut impl FnMut(&Call) -> bool,
) {
    let mut at = 0;
    while *tries > 0 && (at + chunk) * ROW <= best.rows.len() {
        *tries -= 1;
        let mut fewer = best.clone();
        let dropped: Vec<u32> = fewer.rows.drain(at * ROW..(at + chunk) * ROW).collect();
        let mut as_tight = fewer.clone();
        as_tight.room = fewer.room.saturating_sub(session(&dropped) - 1);
        if differs(&as_tight) {
            *best = as_tight;
        } else if differs(&fewer) {
            *best = fewer;
        } else {
            at += chunk;
        }
    }
}

/// Moves the place to the output's start.
fn to_the_start(best: &mut Call, differs: &mut impl FnMut(&Call) -> bool) {
    if let Some(room) = best.room.checked_sub(best.place) {
        let mut first = best.clone();
        (first.room, first.place) = (room, 0);
        if differs(&first) {
            *best = first;
        }
    }
}
