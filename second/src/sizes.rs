//! The smallest size that plays, request 2026-05: "Replay a session with one
//! size code put into every buffer operations write, the fitted codes kept, and
//! name the lowest code from 0 to 15 at which nothing is lost to a full buffer."

use crate::event::{step, Event};
use crate::record::Record;
use crate::refuse;
use crate::registers::LOST_TO_FULL;
use crate::session::each_event;

/// "from 0 to 15"
const LARGEST_CODE: u32 = 15;

/// D3..0: "Active buffer size is determined by the SIZE[3..0] control bit field
/// in the buffer operations register." (the manual)
const SIZE: u32 = 0xF;

/// The refusal number, 0 when there is none, and the size code named.
pub fn smallest_size(file: &[u8], memory: &mut [u32]) -> (u32, u32) {
    match search(file, memory) {
        Ok(code) => (refuse::DONE, code),
        // "each names code 0"
        Err(refusal) => (refusal, 0),
    }
}

/// The code named, or the refusal.
fn search(file: &[u8], memory: &mut [u32]) -> Result<u32, u32> {
    // "10 to 13 first, with the memory untouched": the whole file is read before
    // anything of it is played.
    read(file, |_| {})?;
    // "The sample memory is left as by replaying code 0, 1 and so on up to the
    // code named (15 for refusal 19), each over what the one before left."
    for code in 0..=LARGEST_CODE {
        let lost = replay(file, memory, code)?;
        if !lost {
            return Ok(code);
        }
    }
    // "19 exactly when none of the sixteen codes plays without loss"
    Err(refuse::NO_SIZE)
}

/// One replay with a size code, and whether anything was "lost to a full
/// buffer". "A run starts unpowered and goes on past refused events and lost
/// values.": to the end of the session, also when the answer is known. `run`
/// plays the events as they stand, so this is a run of its own, and like `run` no
/// part of its caller.
#[inline(never)]
fn replay(file: &[u8], memory: &mut [u32], code: u32) -> Result<bool, u32> {
    let mut record = Record::unpowered();
    let mut lost = false;
    read(file, |event| {
        let answer = step(&mut record, memory, &with_code(event, code));
        // "3 lost to closed" is no loss to a full buffer.
        if answer.fate == LOST_TO_FULL {
            lost = true;
        }
    })?;
    Ok(lost)
}

/// "one size code put into every buffer operations write": the other bits stay,
/// and so do all other events ("the fitted codes kept"). It is put in before
/// anything is known of the event's refusal.
#[inline]
fn with_code(event: &Event, code: u32) -> Event {
    match *event {
        Event::Write {
            offset: 0x0C,
            value,
        } => Event::Write {
            offset: 0x0C,
            value: (value & !SIZE) | code,
        },
        other => other,
    }
}

/// The events of the file one after the other, or its refusal.
#[inline]
fn read(file: &[u8], each: impl FnMut(&Event)) -> Result<(), u32> {
    each_event(file, each).map_err(|(refusal, _)| refusal)
}
