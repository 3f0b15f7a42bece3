//! A line of the listing in the making: it is written where it stands.

/// Room for the longest line. It has 29 bytes: five for the record number (a
/// file of 65,536 bytes has at most 21,845 records), six for the count (at most
/// 262,144), twelve for the answers (a refusal number of two digits comes with 0
/// values moved), five blanks and the newline.
const ROOM: usize = 32;

pub(crate) struct Line<'a> {
    room: &'a mut [u8; ROOM],
    length: usize,
}

/// Appends a line to `out`: room is added, the line is written there, and what
/// it leaves of the room is cut off. So no line needs an allocation of its own.
#[inline]
pub(crate) fn append(out: &mut Vec<u8>, write: impl FnOnce(&mut Line)) {
    let start = out.len();
    out.extend_from_slice(&[0; ROOM]);
    if let Some(room) = out.last_chunk_mut() {
        let mut line = Line { room, length: 0 };
        write(&mut line);
        let end = start + line.length;
        out.truncate(end);
    }
}

impl Line<'_> {
    #[inline]
    pub(crate) fn bytes<const LENGTH: usize>(&mut self, bytes: [u8; LENGTH]) {
        self.room[self.length..self.length + LENGTH].copy_from_slice(&bytes);
        self.length += LENGTH;
    }

    /// A number below 1,000,000, decimal. Two digits at a time; a call for each
    /// number would cost more than its digits.
    #[inline(always)]
    pub(crate) fn decimal(&mut self, number: u32) {
        let (high, middle, low) = (number / 10_000, number / 100 % 100, number % 100);
        if number >= 10_000 {
            self.below_100(high);
            self.bytes(PAIRS[middle as usize]);
            self.bytes(PAIRS[low as usize]);
        } else if number >= 100 {
            self.below_100(middle);
            self.bytes(PAIRS[low as usize]);
        } else {
            self.below_100(low);
        }
    }

    /// A number below 100, decimal: one digit or two.
    #[inline]
    pub(crate) fn below_100(&mut self, number: u32) {
        if number >= 10 {
            self.bytes(PAIRS[number as usize]);
        } else {
            self.bytes([b'0' + number as u8]);
        }
    }
}

/// The numbers below 100 in two digits.
const PAIRS: [[u8; 2]; 100] = {
    let mut pairs = [[0; 2]; 100];
    let mut i = 0;
    while i < 100 {
        pairs[i] = [b'0' + i as u8 / 10, b'0' + i as u8 % 10];
        i += 1;
    }
    pairs
};

/// The lowest `DIGITS` hex digits of a number, "in capitals". Most numbers that
/// are printed are 0.
#[inline]
pub(crate) fn hex<const DIGITS: usize>(number: u32) -> [u8; DIGITS] {
    let mut digits = [b'0'; DIGITS];
    if number != 0 {
        for (i, digit) in digits.iter_mut().rev().enumerate() {
            *digit = b"0123456789ABCDEF"[(number >> (4 * i)) as usize & 0xF];
        }
    }
    digits
}
