//! The session file: "Records are read one at a time out of the lent file
//! bytes."

use crate::event::Event;
use crate::refuse;

/// The events of a file: each is handed on, up to the file's end or up to its
/// refusal, the number and "byte where the record starts, 0 for refusal 10".
#[inline]
pub(crate) fn each_event(file: &[u8], mut each: impl FnMut(&Event)) -> Result<(), (u32, usize)> {
    let mut place = start(file)?;
    loop {
        match next(file, place) {
            Next::End => return Ok(()),
            Next::Refused(refusal, at) => return Err((refusal, at)),
            Next::Event(event, after) => {
                place = after;
                each(&event);
            }
        }
    }
}

/// What stands at a place in the file.
enum Next {
    /// The file ends here.
    End,
    /// An event, and the place after its record.
    Event(Event, usize),
    /// A file refusal: its number and "byte where the record starts".
    Refused(u32, usize),
}

/// "Byte 01, then records": the place of the first record, or the refusal.
fn start(file: &[u8]) -> Result<usize, (u32, usize)> {
    // "session file empty or its first byte not 01"
    if file.is_empty() || file[0] != 0x01 {
        return Err((refuse::NO_SESSION, 0));
    }
    Ok(1)
}

/// The record at `place`. "then per record 11, length 0 (12), 13, 12" A call for
/// each record would cost more than the reading.
#[inline(always)]
fn next(file: &[u8], place: usize) -> Next {
    let (high, low, rest) = match &file[place..] {
        [] => return Next::End,
        // "file ends inside a record"
        [_] => return Next::Refused(refuse::CUT, place),
        [high, low, rest @ ..] => (*high, *low, rest),
    };
    // "two-byte big-endian length of what follows"
    let length = u16::from_be_bytes([high, low]) as usize;
    if rest.len() < length {
        return Next::Refused(refuse::CUT, place);
    }
    // "or 0"
    let [kind, fields @ ..] = &rest[..length] else {
        return Next::Refused(refuse::LENGTH, place);
    };
    // "Kinds and lengths: 1 power-up (d, range, filter, kit, firmware in two
    // bytes) 7; 2 write (offset, value in four) 6; 3 read (offset) 2; 4 tick, 5
    // outside clock, 6 trigger, 7 calibration passed, 8 failed, 9 settled, 1
    // each."
    let event = match (*kind, fields) {
        (1, &[fitted, range, filter, kit, high, low]) => Event::PowerUp {
            fitted: fitted as u32,
            range: range as u32,
            filter: filter as u32,
            kit: kit as u32,
            firmware: u16::from_be_bytes([high, low]) as u32,
        },
        (2, &[offset, a, b, c, d]) => Event::Write {
            offset: offset as u32,
            value: u32::from_be_bytes([a, b, c, d]),
        },
        (3, &[offset]) => Event::Read {
            offset: offset as u32,
        },
        (4, []) => Event::Tick,
        (5, []) => Event::Outside,
        (6, []) => Event::Trigger,
        (7, []) => Event::Passed,
        (8, []) => Event::Failed,
        (9, []) => Event::Settled,
        // "record length wrong for its kind"
        (1..=9, _) => return Next::Refused(refuse::LENGTH, place),
        // "unknown record kind"
        _ => return Next::Refused(refuse::KIND, place),
    };
    Next::Event(event, place + 2 + length)
}
