//! Request 2026-01, "Write session files": the writer, its refusals and their
//! order, and the way there and back.

mod common {
    pub mod dice;
    pub mod outputs;
}

use common::dice::Dice;
use common::outputs::{self, bytes};
use second::{rows_of, write_session, Written};

/// Document 01's worked example.
const EXAMPLE: &str = "01 00070100010000 0010 0006020400000005 0006020C00000020 \
                       0006021800009000 0006021800007000 000104 0002030C";
const EXAMPLE_ROWS: [[u32; 6]; 7] = [
    [1, 0, 1, 0, 0, 0x0010],
    [2, 0x04, 0x0000_0005, 0, 0, 0],
    [2, 0x0C, 0x0000_0020, 0, 0, 0],
    [2, 0x18, 0x0000_9000, 0, 0, 0],
    [2, 0x18, 0x0000_7000, 0, 0, 0],
    [4, 0, 0, 0, 0, 0],
    [3, 0x0C, 0, 0, 0, 0],
];

// Events that are good, and bad in each of the two ways.
const TICK: [u32; 6] = [4, 0, 0, 0, 0, 0];
const UNKNOWN: [u32; 6] = [10, 0, 0, 0, 0, 0];
const TOO_LARGE: [u32; 6] = [3, 0x100, 0, 0, 0, 0];
const UNKNOWN_AND_TOO_LARGE: [u32; 6] = [10, 0x100, 0, 0, 0, 1];

/// The writer, given these rows.
fn writer(rows: &[u32]) -> impl Fn(&mut [u8], usize) -> Written + '_ {
    |out, place| write_session(rows, out, place)
}

#[track_caller]
fn writes(rows: &[u32], length: usize, place: usize, session: &[u8]) {
    outputs::writes(writer(rows), length, place, session);
}

#[track_caller]
fn refuses(rows: &[u32], length: usize, place: usize, refusal: u32) {
    outputs::refuses(rows, writer(rows), length, place, refusal);
}

/// One event, written after the byte 01 into an output with bytes to spare.
#[track_caller]
fn event(row: [u32; 6], record: &str) {
    writes(&row, 20, 3, &bytes(&format!("01 {record}")));
}

// ---- what is written -------------------------------------------------------

#[test]
fn worked_example() {
    let session = bytes(EXAMPLE);
    assert_eq!(session.len(), 49);
    writes(EXAMPLE_ROWS.as_flattened(), 49, 0, &session);
    writes(EXAMPLE_ROWS.as_flattened(), 100, 17, &session);
    assert_eq!(rows_of(&session), Ok(EXAMPLE_ROWS.as_flattened().to_vec()));
}

#[test]
fn records() {
    // "Kinds and lengths"; fields of several bytes are big-endian.
    event(
        [1, 0x12, 0x34, 0x56, 0x78, 0x9ABC],
        "0007 01 12 34 56 78 9ABC",
    );
    event([2, 0x12, 0x3456_789A, 0, 0, 0], "0006 02 12 3456789A");
    event([3, 0x12, 0, 0, 0, 0], "0002 03 12");
    event([4, 0, 0, 0, 0, 0], "0001 04");
    event([5, 0, 0, 0, 0, 0], "0001 05");
    event([6, 0, 0, 0, 0, 0], "0001 06");
    event([7, 0, 0, 0, 0, 0], "0001 07");
    event([8, 0, 0, 0, 0, 0], "0001 08");
    event([9, 0, 0, 0, 0, 0], "0001 09");
    // The largest numbers that the bytes hold, although a run refuses them.
    event(
        [1, 0xFF, 0xFF, 0xFF, 0xFF, 0xFFFF],
        "0007 01 FF FF FF FF FFFF",
    );
    event([2, 0xFF, u32::MAX, 0, 0, 0], "0006 02 FF FFFFFFFF");
    event([3, 0xFF, 0, 0, 0, 0], "0002 03 FF");
    // and the smallest
    event([1, 0, 0, 0, 0, 0], "0007 01 00 00 00 00 0000");
    event([2, 0, 0, 0, 0, 0], "0006 02 00 00000000");
    event([3, 0, 0, 0, 0, 0], "0002 03 00");
}

#[test]
fn no_events() {
    // A session without records is the byte 01.
    writes(&[], 1, 0, &[0x01]);
    writes(&[], 9, 8, &[0x01]);
    assert_eq!(rows_of(&[0x01]), Ok(vec![]));
    refuses(&[], 0, 0, 21);
    refuses(&[], 9, 9, 21);
    refuses(&[], 9, 10, 20);
}

#[test]
fn long_sessions() {
    // No limit but the output: 200,000 records of each length, more than
    // `rehearse` reads.
    let mut rows = Vec::new();
    let mut session = vec![0x01];
    for n in 0..200_000_u32 {
        let [a, b, c, d] = n.to_be_bytes();
        rows.extend([1, 15, 2, 1, 0, n % 4096]);
        session.extend([0, 7, 1, 15, 2, 1, 0, c & 0xF, d]);
        rows.extend([2, 0x18, n, 0, 0, 0]);
        session.extend([0, 6, 2, 0x18, a, b, c, d]);
        rows.extend([3, n % 256, 0, 0, 0, 0]);
        session.extend([0, 2, 3, d]);
        rows.extend([4 + n % 6, 0, 0, 0, 0, 0]);
        session.extend([0, 1, 4 + (n % 6) as u8]);
    }
    let length = session.len();
    assert_eq!(length, 1 + 200_000 * (9 + 8 + 4 + 3));
    writes(&rows, length + 2, 1, &session);
    refuses(&rows, length, 1, 21);
    assert!(rows_of(&session).as_ref() == Ok(&rows));
    // The last event is the bad one.
    rows.extend(TOO_LARGE);
    refuses(&rows, length + 100, 0, 30);
}

// ---- each refusal alone ----------------------------------------------------

#[test]
fn slice_not_of_whole_events() {
    for length in (0..40).filter(|length| length % 6 != 0) {
        // Ticks, the last one cut off.
        let rows: Vec<u32> = TICK.into_iter().cycle().take(length).collect();
        refuses(&rows, 100, 0, 32);
    }
}

#[test]
fn unknown_kinds() {
    // 260 is 4 and 265 is 9 in their lowest byte.
    for kind in [0, 10, 11, 255, 256, 257, 260, 265, 0x1_0004, 0x0400_0000] {
        refuses(&[kind, 0, 0, 0, 0, 0], 100, 0, 13);
    }
    refuses(&[u32::MAX, 0, 0, 0, 0, 0], 100, 0, 13);
}

#[test]
fn fields_too_large() {
    // One byte: 100h is 0 in its lowest byte, and so are the others.
    for large in [0x100, 0x1_0000, 0x8000_0000, u32::MAX] {
        for field in 1..=4 {
            let mut row = [1, 0, 0, 0, 0, 0];
            row[field] = large;
            refuses(&row, 100, 0, 30);
        }
        refuses(&[2, large, 0, 0, 0, 0], 100, 0, 30);
        refuses(&[3, large, 0, 0, 0, 0], 100, 0, 30);
    }
    // Two bytes.
    for large in [0x1_0000, 0x1_0001, 0x8000_0000, u32::MAX] {
        refuses(&[1, 0, 0, 0, 0, large], 100, 0, 30);
    }
    // Four bytes hold any number. One more would carry into the next field,
    // which must be 0.
    event([2, 0, u32::MAX, 0, 0, 0], "0006 02 00 FFFFFFFF");
    refuses(&[2, 0, 0, 1, 0, 0], 100, 0, 30);
}

#[test]
fn fields_not_0_where_the_kind_has_none() {
    for kind in 2..=9 {
        let fields = match kind {
            2 => 2,
            3 => 1,
            _ => 0,
        };
        for none in 1 + fields..6 {
            for number in [1, 0xFF, 0x100, 0x1_0000, u32::MAX] {
                let mut row = [kind, 0, 0, 0, 0, 0];
                row[none] = number;
                refuses(&row, 100, 0, 30);
            }
        }
    }
}

#[test]
fn places() {
    // A session of 4 bytes.
    let session = bytes("01 000104");
    writes(&TICK, 10, 0, &session);
    writes(&TICK, 10, 5, &session);
    // Exactly long enough, and short by one byte.
    writes(&TICK, 10, 6, &session);
    refuses(&TICK, 10, 7, 21);
    writes(&TICK, 4, 0, &session);
    refuses(&TICK, 3, 0, 21);
    // One byte left, and none: the output's end is not past the end.
    refuses(&TICK, 10, 9, 21);
    refuses(&TICK, 10, 10, 21);
    refuses(&TICK, 0, 0, 21);
    // Past it.
    refuses(&TICK, 10, 11, 20);
    refuses(&TICK, 0, 1, 20);
    for place in [isize::MAX as usize, usize::MAX - 3, usize::MAX] {
        refuses(&TICK, 10, place, 20);
        refuses(&TICK, 0, place, 20);
        refuses(&[], 10, place, 20);
    }
}

#[test]
fn room_for_the_example() {
    // Every output that is too short, whatever record it ends in.
    let session = bytes(EXAMPLE);
    for place in [0, 1, 30] {
        for room in 0..session.len() {
            refuses(EXAMPLE_ROWS.as_flattened(), place + room, place, 21);
        }
        let enough = place + session.len();
        writes(EXAMPLE_ROWS.as_flattened(), enough, place, &session);
    }
}

// ---- the order of the refusals ---------------------------------------------

/// The refusal of some events and of some numbers after them.
fn order(events: &[[u32; 6]], more: &[u32], length: usize, place: usize, refusal: u32) {
    refuses(
        &[events.as_flattened(), more].concat(),
        length,
        place,
        refusal,
    );
}

#[test]
fn whole_events_first() {
    // 32 before each of the others.
    order(&[UNKNOWN], &[4], 100, 0, 32);
    order(&[TOO_LARGE], &[4], 100, 0, 32);
    order(&[TICK], &[4], 10, 11, 32);
    order(&[TICK], &[4], 3, 0, 32);
    order(&[UNKNOWN, TOO_LARGE], &[10, 0x100], 10, usize::MAX, 32);
    order(&[], &[10], 0, 0, 32);
}

#[test]
fn first_bad_event_decides() {
    // "13 before 30" in one event,
    order(&[UNKNOWN_AND_TOO_LARGE], &[], 100, 0, 13);
    order(&[TICK, UNKNOWN_AND_TOO_LARGE, TOO_LARGE], &[], 100, 0, 13);
    // but of two bad events the first one decides.
    order(&[UNKNOWN, TOO_LARGE], &[], 100, 0, 13);
    order(&[TOO_LARGE, UNKNOWN], &[], 100, 0, 30);
    order(&[TICK, TOO_LARGE, TICK, UNKNOWN], &[], 100, 0, 30);
    order(&[TICK, UNKNOWN, TICK, TOO_LARGE, TICK], &[], 100, 0, 13);
}

#[test]
fn events_before_place_and_room() {
    // 13 and 30 before 20, even in the last event,
    order(&[TICK, UNKNOWN], &[], 10, 11, 13);
    order(&[TICK, TOO_LARGE], &[], 10, 11, 30);
    order(&[TICK, UNKNOWN], &[], 10, usize::MAX, 13);
    order(&[TICK, TOO_LARGE], &[], 10, usize::MAX, 30);
    // and before 21.
    order(&[TICK, UNKNOWN], &[], 3, 0, 13);
    order(&[TICK, TOO_LARGE], &[], 3, 0, 30);
    order(&[TICK, TICK, UNKNOWN], &[], 0, 0, 13);
    order(&[TICK, TICK, TOO_LARGE], &[], 0, 0, 30);
}

#[test]
fn place_before_room() {
    // What starts past the end doesn't fit either.
    order(&[TICK], &[], 3, 4, 20);
    order(&[TICK], &[], 3, 3, 21);
    order(&[], &[], 0, 1, 20);
    order(&[], &[], 0, 0, 21);
}

// ---- there and back --------------------------------------------------------

#[test]
fn files_refused() {
    // `rows_of` answers the file refusal, whatever stands before the record.
    assert_eq!(rows_of(&bytes("")), Err(10));
    assert_eq!(rows_of(&bytes("02 000104")), Err(10));
    assert_eq!(rows_of(&bytes("01 000104 00")), Err(11));
    assert_eq!(rows_of(&bytes("01 000104 0002 03")), Err(11));
    assert_eq!(rows_of(&bytes("01 000104 0000")), Err(12));
    assert_eq!(rows_of(&bytes("01 000104 0002 0400")), Err(12));
    assert_eq!(rows_of(&bytes("01 000104 0001 0A")), Err(13));
}

impl Dice {
    /// A number of up to `bytes` bytes: often the smallest or the largest.
    fn number(&mut self, bytes: u32) -> u32 {
        let largest = ((1_u64 << (8 * bytes)) - 1) as u32;
        match self.roll(4) {
            0 => 0,
            1 => largest,
            _ => self.any() & largest,
        }
    }
    /// A good event.
    fn row(&mut self) -> [u32; 6] {
        let kind = 1 + self.roll(9);
        let mut row = [kind, 0, 0, 0, 0, 0];
        for (field, bytes) in row[1..].iter_mut().zip(widths(kind)) {
            *field = self.number(*bytes);
        }
        row
    }
}

/// The bytes of each field of a known kind.
fn widths(kind: u32) -> &'static [u32] {
    match kind {
        1 => &[1, 1, 1, 1, 2],
        2 => &[1, 4],
        3 => &[1],
        _ => &[],
    }
}

/// The session of some events written out field by field and byte by byte, or
/// the refusal 13 or 30.
fn plainly(rows: &[u32]) -> Result<Vec<u8>, u32> {
    let mut session = vec![0x01];
    for row in rows.chunks(6) {
        if row[0] < 1 || row[0] > 9 {
            return Err(13);
        }
        let mut record = vec![row[0] as u8];
        for field in 0..5 {
            let bytes = widths(row[0]).get(field).copied().unwrap_or(0);
            let number = row[1 + field] as u64;
            if number >> (8 * bytes) != 0 {
                return Err(30);
            }
            record.extend((0..bytes).rev().map(|byte| (number >> (8 * byte)) as u8));
        }
        session.extend([0, record.len() as u8]);
        session.extend(record);
    }
    Ok(session)
}

#[test]
fn random_sessions() {
    let mut dice = Dice(0x0020_2601);
    for _ in 0..2_000 {
        let rows: Vec<u32> = (0..dice.roll(20)).flat_map(|_| dice.row()).collect();
        let session = plainly(&rows).unwrap();
        let place = dice.roll(30) as usize;
        let stop = place + session.len();
        writes(&rows, stop + dice.roll(30) as usize, place, &session);
        refuses(&rows, stop - 1, place, 21);

        // "Reading back gives the events",
        let mut out = vec![0xA5; stop];
        let written = write_session(&rows, &mut out, place);
        let read = rows_of(&out[place..written.place]).unwrap();
        assert_eq!(read, rows);
        // "and writing what was read gives the same bytes."
        writes(&read, stop, place, &session);
    }
}

#[test]
fn random_damage() {
    // Good events in which a few numbers are changed.
    let mut dice = Dice(0x0013_0030);
    let mut met = [0; 3];
    for _ in 0..20_000 {
        let mut rows: Vec<u32> = (0..1 + dice.roll(6)).flat_map(|_| dice.row()).collect();
        for _ in 0..dice.roll(4) {
            let spot = dice.roll(rows.len() as u32) as usize;
            rows[spot] = match dice.roll(4) {
                0 => dice.roll(12),
                1 => rows[spot].wrapping_add(0x100),
                2 => 1 << dice.roll(32),
                _ => 0,
            };
        }
        match plainly(&rows) {
            Ok(session) => {
                writes(&rows, 100, 7, &session);
                assert_eq!(rows_of(&session), Ok(rows));
                met[0] += 1;
            }
            Err(refusal) => {
                refuses(&rows, 100, 7, refusal);
                refuses(&rows, 6, 7, refusal);
                met[if refusal == 13 { 1 } else { 2 }] += 1;
            }
        }
    }
    assert!(met.iter().all(|times| *times > 1_000), "{met:?}");
}
