//! A session file as bytes: "Byte 01, then records: two-byte big-endian length
//! of what follows, kind, fields."

use crate::fields::*;
use std::ops::Range;

/// "`rehearse` reads a file (at most 65,536 bytes, memory 16,384 values)"
pub const LONGEST: usize = 65_536;
pub const MEMORY: usize = 16_384;

/// The byte that opens every session file.
pub const OPENING: u8 = 0x01;

/// How many bytes each field of a kind has: "1 power-up (d, range, filter, kit,
/// firmware in two bytes) 7; 2 write (offset, value in four) 6; 3 read (offset)
/// 2; 4 tick, 5 outside clock, 6 trigger, 7 calibration passed, 8 failed, 9
/// settled, 1 each."
pub fn widths(kind: u32) -> Option<&'static [usize]> {
    match kind {
        POWER_UP => Some(&[1, 1, 1, 1, 2]),
        WRITE => Some(&[1, 4]),
        READ => Some(&[1]),
        TICK..=SETTLED => Some(&[]),
        _ => None,
    }
}

/// What of an event a record can hold: an offset of two bytes cannot stand in a
/// file, nor a setting of two.
pub fn held(event: &Event) -> Event {
    let mut held = simple(event[0]);
    for (i, width) in widths(event[0]).unwrap_or(&[]).iter().enumerate() {
        held[i + 1] = event[i + 1] & (u32::MAX >> (32 - 8 * width));
    }
    held
}

/// The record of an event, with its length.
pub fn record(event: &Event) -> Vec<u8> {
    let mut bytes = vec![0, 0, event[0] as u8];
    for (i, width) in widths(event[0]).unwrap_or(&[]).iter().enumerate() {
        bytes.extend_from_slice(&event[i + 1].to_be_bytes()[4 - width..]);
    }
    let length = bytes.len() - 2;
    bytes[1] = length as u8;
    bytes
}

/// The records of these events, behind what is there.
pub fn put(file: &mut Vec<u8>, events: &[Event]) {
    for event in events {
        file.extend_from_slice(&record(event));
    }
}

/// Where the records stand, told by their lengths alone. The last one may be
/// cut.
pub fn places(file: &[u8]) -> Vec<Range<usize>> {
    let mut places = Vec::new();
    let mut at = 1;
    while at < file.len() {
        let end = match file[at..] {
            [high, low, ..] => at + 2 + high as usize * 256 + low as usize,
            _ => file.len(),
        };
        places.push(at..end.min(file.len()));
        at = end;
    }
    places
}

/// The bytes of a record's fields, the kind first, each by itself; none if the
/// kind or the length is wrong.
pub fn fields(record: &[u8]) -> Option<Vec<&[u8]>> {
    let kind = *record.get(2)?;
    let mut fields = vec![&record[2..3]];
    let mut at = 3;
    for width in widths(kind as u32)? {
        fields.push(record.get(at..at + width)?);
        at += width;
    }
    let length = record[0] as usize * 256 + record[1] as usize;
    (at == record.len() && length == at - 2).then_some(fields)
}

/// The event of a record, if it has one.
pub fn event(record: &[u8]) -> Option<Event> {
    let mut event = simple(0);
    for (number, field) in event.iter_mut().zip(fields(record)?) {
        *number = field.iter().fold(0, |n, byte| n << 8 | *byte as u32);
    }
    Some(event)
}

/// The events up to the first record that has none.
pub fn events(file: &[u8]) -> Vec<Event> {
    if file.first() != Some(&OPENING) {
        return Vec::new();
    }
    let places = places(file).into_iter();
    places.map_while(|place| event(&file[place])).collect()
}

/// Why a record has no event: "then per record 11, length 0 (12), 13, 12".
pub fn trouble(record: &[u8]) -> &'static str {
    match *record {
        [high, low, ..] if record.len() - 2 < high as usize * 256 + low as usize => {
            "the file ends inside this record"
        }
        [_, _] => "length 0",
        [_, _, kind, ..] if widths(kind as u32).is_none() => "unknown kind",
        [_, _, _, ..] => "length wrong for its kind",
        _ => "the file ends inside this length",
    }
}
