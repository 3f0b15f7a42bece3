//! What `rehearse` prints.

use crate::event::Answer;
use crate::line::{append, hex};
use crate::record::Record;
use crate::run::run;

/// "`rehearse` reads a file (at most 65,536 bytes, memory 16,384 values) from
/// standard input."
const LONGEST: usize = 65_536;
const MEMORY: usize = 16_384;

/// The listing of a file, with a memory of its own.
pub fn listing(file: &[u8]) -> String {
    let mut out = Vec::new();
    list(file, &mut vec![0; MEMORY], &mut out);
    String::from_utf8(out).expect("a listing is ASCII")
}

/// The listing of a file, in place of what `out` held. The memory is lent.
pub fn list(file: &[u8], memory: &mut [u32], out: &mut Vec<u8>) {
    out.clear();
    // "A longer input prints only `TOO LONG`."
    if file.len() > LONGEST {
        out.extend_from_slice(b"TOO LONG\n");
        return;
    }
    out.extend_from_slice(b"REHEARSAL 1\n");
    // "A run starts unpowered"
    let mut record = Record::unpowered();
    // One line per record.
    let mut number = 0;
    let end = run(file, memory, &mut record, |_, answer, record| {
        number += 1;
        event_line(number, answer, record.count, out);
    });
    // "A file refusal prints `FILE n p` (p: byte where the record starts, 0 for
    // refusal 10) before LEVELS."
    if let Err((refusal, place)) = end {
        file_line(refusal, place, out);
    }
    levels_line(&record.levels, out);
}

/// "Fields: record number, the four answers, count after; the register value in
/// eight hex digits, the others decimal".
#[inline]
fn event_line(number: u32, answer: &Answer, count: u32, out: &mut Vec<u8>) {
    append(out, |line| {
        line.decimal(number);
        line.bytes([b' ']);
        line.below_100(answer.refusal);
        line.bytes([b' ']);
        line.bytes(hex::<8>(answer.register));
        line.bytes([b' ']);
        line.below_100(answer.moved);
        line.bytes([b' ', b'0' + answer.fate as u8, b' ']);
        line.decimal(count);
        line.bytes([b'\n']);
    });
}

/// "A file refusal prints `FILE n p`".
fn file_line(refusal: u32, place: usize, out: &mut Vec<u8>) {
    append(out, |line| {
        line.bytes(*b"FILE ");
        line.decimal(refusal);
        line.bytes([b' ']);
        line.decimal(place as u32);
        line.bytes([b'\n']);
    });
}

/// "levels in four, channel 00 first; hex in capitals"
fn levels_line(levels: &[u16; 20], out: &mut Vec<u8>) {
    out.extend_from_slice(b"LEVELS");
    for level in levels {
        out.push(b' ');
        out.extend_from_slice(&hex::<4>(*level as u32));
    }
    out.push(b'\n');
}
