//! A replay on the model, event by event. Only for `--coverage`: it tells what
//! happened in a session, and the comparison itself never asks.

use compare::bits::CODE_BITS;
use compare::fields::*;
use compare::model;

/// Replays with this size code in every write to BOR. After each event `after`
/// gets the event, its answer, and the record before and after; it says whether
/// to go on.
pub fn replay(
    events: &[Event],
    code: u32,
    memory: &mut [u32],
    mut after: impl FnMut(&Event, Answer, &Record, &Record) -> bool,
) {
    let mut record = [0; RECORD];
    for event in events {
        let mut played = *event;
        if event[..2] == [WRITE, BOR] {
            played[2] = event[2] & !CODE_BITS | code;
        }
        let (before, mut answer) = (record, [0; 4]);
        model::call(&mut record, memory, &played, &mut answer);
        if !after(&played, answer, &before, &record) {
            return;
        }
    }
}
