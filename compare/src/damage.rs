//! What can be wrong with a session file. Each takes a valid one that has a
//! record at least. Places lean to the end, so that something is played first.

use crate::file;
use crate::rng::Rng;
use std::ops::Range;

pub fn any(file: &mut Vec<u8>, rng: &mut Rng) {
    let damage = rng.pick(&[
        cut as fn(&mut Vec<u8>, &mut Rng),
        wrong_length,
        zero_length,
        unknown_kind,
        tail,
        flip,
        shift,
    ]);
    damage(file, rng);
}

/// "its first byte not 01"
pub fn version(file: &mut Vec<u8>, rng: &mut Rng) {
    let random = (rng.word() | 2) as u8;
    file[0] = rng.pick(&[0, 2, 0x81, 0xFF, random]);
    if rng.chance(1, 8) {
        file.truncate(1);
    }
}

/// "file ends inside a record", mostly.
pub fn cut(file: &mut Vec<u8>, rng: &mut Rng) {
    let at = late(file.len(), rng);
    file.truncate(at.max(1));
}

/// "record length wrong for its kind": a byte more or less, with the record's
/// bytes or without; past the end of the file, or exactly up to it.
pub fn wrong_length(file: &mut Vec<u8>, rng: &mut Rng) {
    let place = record(file, rng);
    let right = place.len() - 2;
    let rest = file.len() - place.start - 2;
    match rng.below(9) {
        0 => set_length(file, &place, right + 1),
        1 => set_length(file, &place, right - 1),
        2 => {
            file.insert(place.end, rng.word() as u8);
            set_length(file, &place, right + 1);
        }
        3 => {
            file.remove(place.end - 1);
            set_length(file, &place, right - 1);
        }
        4 => set_length(file, &place, 0xFFFF),
        5 => set_length(file, &place, rest),
        6 => set_length(file, &place, rest + 1),
        // The right one with its bytes the wrong way round.
        7 => set_length(file, &place, right << 8),
        _ => set_length(file, &place, rng.below(20) as usize),
    }
}

/// "or 0": before a record, in place of one, or at the very end.
pub fn zero_length(file: &mut Vec<u8>, rng: &mut Rng) {
    let place = record(file, rng);
    match rng.below(4) {
        0 => drop(file.splice(place.start..place.start, [0, 0])),
        1 => drop(file.splice(place, [0, 0])),
        2 => set_length(file, &place, 0),
        _ => file.extend_from_slice(&[0, 0]),
    }
}

/// "unknown record kind", alone or with a length that would be wrong too.
pub fn unknown_kind(file: &mut Vec<u8>, rng: &mut Rng) {
    let place = record(file, rng);
    let random = (rng.word() | 0x10) as u8;
    file[place.start + 2] = rng.pick(&[0, 0, 10, 10, 11, 0x81, 0xFF, random]);
    if rng.chance(1, 3) {
        let length = rng.pick(&[0, 1, 2, 6, 7, 8, 20, 0xFFFF]);
        set_length(file, &place, length);
    }
}

/// Random bytes after a valid start; small ones, so that some make records.
pub fn tail(file: &mut Vec<u8>, rng: &mut Rng) {
    let place = record(file, rng);
    let at = rng.pick(&[place.start, place.end, file.len()]);
    file.truncate(at);
    let small = rng.chance(2, 3);
    for _ in 0..1 + rng.below(30) {
        let byte = if small { rng.below(10) } else { rng.word() };
        file.push(byte as u8);
    }
}

/// Up to four bytes are others, in one bit or in all.
pub fn flip(file: &mut Vec<u8>, rng: &mut Rng) {
    for _ in 0..1 + rng.below(4) {
        let at = rng.below(file.len() as u32) as usize;
        file[at] = if rng.chance(1, 2) {
            file[at] ^ 1 << rng.below(8)
        } else {
            rng.word() as u8
        };
    }
}

/// A byte is missing, or there is one too many.
pub fn shift(file: &mut Vec<u8>, rng: &mut Rng) {
    let at = late(file.len(), rng);
    if rng.chance(1, 2) {
        file.remove(at);
    } else {
        file.insert(at, rng.pick(&[0, 1, 2, 0xFF]));
    }
}

/// A record of the file.
fn record(file: &[u8], rng: &mut Rng) -> Range<usize> {
    let places = file::places(file);
    places[late(places.len(), rng)].clone()
}

/// 0 to n - 1, the later the likelier.
fn late(n: usize, rng: &mut Rng) -> usize {
    let n = n as u32;
    rng.below(n).max(rng.below(n)) as usize
}

fn set_length(file: &mut [u8], place: &Range<usize>, length: usize) {
    let length = (length as u16).to_be_bytes();
    file[place.start..place.start + 2].copy_from_slice(&length);
}
