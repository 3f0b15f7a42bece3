//! The run of a session: "A run starts unpowered and goes on past refused events
//! and lost values."

use crate::event::{step, Answer, Event};
use crate::record::Record;
use crate::session::each_event;

/// Runs a file on a record, which is unpowered at the start. After each event
/// `after` gets the event, its answer and the record; at the end there is the
/// file refusal, if any: "A file refusal stops it, and record and memory stay as
/// the earlier records left them." It is no part of its callers: so what they
/// hold beside it does not slow it down.
#[inline(never)]
pub(crate) fn run(
    file: &[u8],
    memory: &mut [u32],
    record: &mut Record,
    mut after: impl FnMut(&Event, &Answer, &Record),
) -> Result<(), (u32, usize)> {
    each_event(file, |event| {
        let answer = step(record, memory, event);
        after(event, &answer, record);
    })
}
