//! Makes a call that differs shorter: drops groups at the end or at the start of
//! the recording, many at once and then one at a time, while it still differs.

use super::call::Call;

pub fn shorten(call: &Call, mut tries: u32, mut differs: impl FnMut(&Call) -> bool) -> Call {
    let mut best = call.clone();
    let mut chunk = best.order.groups();
    while chunk > 0 {
        let shorter = fewer(&best, chunk).into_iter().find(|fewer| {
            let left = tries > 0;
            tries = tries.saturating_sub(1);
            left && differs(fewer)
        });
        match shorter {
            Some(shorter) => best = shorter,
            None => chunk /= 2,
        }
    }
    to_the_start(&mut best, &mut differs);
    best
}

/// The same with so many groups fewer at the end or at the start: the two that are
/// named stay, or move with the rest. From an output that is as much too long or
/// too short as before, or that is as long.
fn fewer(call: &Call, groups: usize) -> Vec<Call> {
    let order = &call.order;
    let numbers = groups * order.channels as usize;
    let Some(left) = order.recording.len().checked_sub(numbers) else {
        return Vec::new();
    };
    let (first, last) = (order.first, order.last);
    let named = [
        Some((first, last)),
        last.checked_sub(groups).map(|last| (first, last)),
        first.checked_sub(groups).zip(last.checked_sub(groups)),
    ];
    let mut shorter = Vec::new();
    for (first, last) in named.into_iter().flatten() {
        for from in [0, numbers] {
            let mut fewer = call.clone();
            fewer.order.recording = order.recording[from..from + left].to_vec();
            (fewer.order.first, fewer.order.last) = (first, last);
            let mut as_tight = fewer.clone();
            let room = call.room + fewer.order.length();
            as_tight.room = room.saturating_sub(order.length());
            shorter.extend([as_tight, fewer]);
        }
    }
    shorter
}

/// Moves the place to the output's start.
fn to_the_start(best: &mut Call, differs: &mut impl FnMut(&Call) -> bool) {
    if let Some(room) = best.room.checked_sub(best.place) {
        let mut first = best.clone();
        (first.room, first.place) = (room, 0);
        if differs(&first) {
            *best = first;
        }
    }
}
