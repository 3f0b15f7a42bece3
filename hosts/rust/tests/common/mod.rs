//! Sessions for the tests that ask something of a whole one.

use nergutsai::{session_room, write, Event, Refusal};

/// What stands in a memory before.
pub const JUNK: u32 = 0xDEAD_BEEF;

pub fn session(events: &[Event]) -> Vec<u8> {
    let rows: Vec<u32> = events.iter().flat_map(|event| event.row()).collect();
    let mut file = vec![0; session_room(events.len())];
    let end = write(&rows, &mut file, 0).expect("it has room");
    file.truncate(end);
    file
}

/// This session with something wrong behind its last record, and what that is refused with.
pub fn damaged(session: &[u8]) -> [(Vec<u8>, Refusal, u32); 4] {
    let behind = |bytes: &[u8]| [session, bytes].concat();
    [
        (behind(&[0]), Refusal::Cut, 11),
        (behind(&[0, 0]), Refusal::WrongLength, 12),
        (behind(&[0, 1, 3]), Refusal::WrongLength, 12),
        (behind(&[0, 1, 10]), Refusal::UnknownKind, 13),
    ]
}
