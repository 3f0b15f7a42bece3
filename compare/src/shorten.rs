//! Makes a session file that differs shorter: drops records, many at once and
//! then one at a time, while it still differs.

use crate::file;

/// Bytes that the runs may read in all, and what a run counts for at least: so
/// there are 4,000 of them, and fewer where the file is so long that each takes
/// its time.
const BYTES: usize = 100_000_000;
const LEAST: usize = 25_000;

pub fn shorten(bytes: &[u8], mut differs: impl FnMut(&[u8]) -> bool) -> Vec<u8> {
    let mut best = bytes.to_vec();
    let mut left = BYTES;
    loop {
        let length = best.len();
        let mut chunk = file::places(&best).len();
        while chunk > 0 {
            drop_chunks(&mut best, chunk, &mut left, &mut differs);
            chunk /= 2;
        }
        if best.len() == length || left == 0 {
            return best;
        }
    }
}

/// Drops so many records at once, wherever it still differs without them.
fn drop_chunks(
    best: &mut Vec<u8>,
    chunk: usize,
    left: &mut usize,
    differs: &mut impl FnMut(&[u8]) -> bool,
) {
    let mut at = 0;
    while *left > 0 {
        let places = file::places(best);
        if at + chunk > places.len() {
            return;
        }
        let mut candidate = best.clone();
        candidate.drain(places[at].start..places[at + chunk - 1].end);
        *left = left.saturating_sub(candidate.len().max(LEAST));
        if differs(&candidate) {
            *best = candidate;
        } else {
            at += chunk;
        }
    }
}
