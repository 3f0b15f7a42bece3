//! The session writer, request 2026-01: "from a lent slice of events, six
//! numbers each (kind, then fields), it writes a version 1 session into a lent
//! output, from a place the caller names, and says where it stopped." All rows
//! are judged first, so that a refused call "writes no byte".

use crate::refuse;
use crate::rows::{whole, ROW};

/// The refusal number, and where the session stopped: the place of the output
/// right after its last byte, 0 when refused.
#[derive(Clone, Copy, Debug, PartialEq, Eq)]
pub struct Written {
    pub refusal: u32,
    pub place: usize,
}

/// Writes the events of `rows` into `out`, from `place` on.
pub fn write_session(rows: &[u32], out: &mut [u8], place: usize) -> Written {
    match judge(rows, out.len(), place) {
        // "each answers place 0 and writes no byte"
        Err(refusal) => Written { refusal, place: 0 },
        Ok(length) => {
            // "Bytes outside what it writes don't change."
            let stop = place + length;
            write(rows, &mut out[place..stop]);
            Written {
                refusal: refuse::DONE,
                place: stop,
            }
        }
    }
}

/// The length of the whole session, or the refusal. `end` is the output's.
fn judge(rows: &[u32], end: usize, place: usize) -> Result<usize, u32> {
    // "32 a slice not of whole events, first"
    if !rows.chunks_exact(ROW).remainder().is_empty() {
        return Err(refuse::ROWS);
    }
    // "Byte 01, then records". A record has at most 9 bytes and its row 24, so
    // the sum cannot overflow.
    let mut length = 1;
    for row in whole(rows) {
        // "the first bad event decides"
        length += record_length(row)?;
    }
    // "then 20": "a place past the output's end"
    let Some(room) = end.checked_sub(place) else {
        return Err(refuse::PLACE);
    };
    // "then 21": "when the whole session doesn't fit"
    if length > room {
        return Err(refuse::ROOM);
    }
    Ok(length)
}

/// The bytes of an event's record, or its refusal. "13 before 30"
#[inline]
fn record_length(row: &[u32; ROW]) -> Result<usize, u32> {
    let [kind, fields @ ..] = row;
    // "two-byte big-endian length of what follows", with the largest number
    // that each field has bytes for: 0 "where the kind has none".
    let (length, largest) = match kind {
        // "1 power-up (d, range, filter, kit, firmware in two bytes) 7"
        1 => (7, [0xFF, 0xFF, 0xFF, 0xFF, 0xFFFF]),
        // "2 write (offset, value in four) 6"
        2 => (6, [0xFF, 0xFFFF_FFFF, 0, 0, 0]),
        // "3 read (offset) 2"
        3 => (2, [0xFF, 0, 0, 0, 0]),
        // "4 tick, 5 outside clock, 6 trigger, 7 calibration passed, 8 failed,
        // 9 settled, 1 each"
        4..=9 => (1, [0; 5]),
        // "13 an unknown kind"
        _ => return Err(refuse::KIND),
    };
    // "30 a field too large for its bytes or not 0 where the kind has none"
    let mut bounds = fields.iter().zip(largest);
    if bounds.any(|(&field, most)| field > most) {
        return Err(refuse::FIELD);
    }
    Ok(2 + length)
}

/// The session of judged rows, into a room of just its length. The casts to
/// bytes lose nothing: each field has been found to fit.
fn write(rows: &[u32], room: &mut [u8]) {
    // "Byte 01, then records: two-byte big-endian length of what follows, kind,
    // fields."
    let mut rest = put(room, [0x01]);
    for row in whole(rows) {
        rest = match *row {
            [1, fitted, range, filter, kit, firmware] => {
                let [fitted, range, filter, kit] = [fitted, range, filter, kit].map(|x| x as u8);
                let [high, low] = (firmware as u16).to_be_bytes();
                put(rest, [0, 7, 1, fitted, range, filter, kit, high, low])
            }
            [2, offset, value, ..] => {
                let [a, b, c, d] = value.to_be_bytes();
                put(rest, [0, 6, 2, offset as u8, a, b, c, d])
            }
            [3, offset, ..] => put(rest, [0, 2, 3, offset as u8]),
            [kind, ..] => put(rest, [0, 1, kind as u8]),
        };
    }
}

/// Writes at the beginning of a room; what is left of it comes back.
#[inline]
fn put<const LENGTH: usize>(room: &mut [u8], bytes: [u8; LENGTH]) -> &mut [u8] {
    let (here, rest) = room.split_at_mut(LENGTH);
    here.copy_from_slice(&bytes);
    rest
}
