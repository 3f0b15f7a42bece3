//! Events and session files of sizes.rs and volts.rs.

use second::{list, write_session};

pub const JUNK: u32 = 0xDEAD_BEEF;

// Events, "six numbers each (kind, then fields)".
pub const TICK: [u32; 6] = [4, 0, 0, 0, 0, 0];
pub const OUTSIDE: [u32; 6] = [5, 0, 0, 0, 0, 0];
pub const TRIGGER: [u32; 6] = [6, 0, 0, 0, 0, 0];
pub const PASSED: [u32; 6] = [7, 0, 0, 0, 0, 0];
pub const SETTLED: [u32; 6] = [9, 0, 0, 0, 0, 0];

/// What a session file may end in, and the refusal.
pub const DAMAGES: [(&[u8], u32); 8] = [
    (&[0x00], 11),
    (&[0x00, 0x01], 11),
    (&[0x00, 0x07, 0x01, 0x00, 0x00], 11),
    (&[0x00, 0x00], 12),
    (&[0x00, 0x02, 0x04, 0x00], 12),
    (&[0x00, 0x06, 0x01, 0x00, 0x00, 0x00, 0x00, 0x00], 12),
    (&[0x00, 0x01, 0x00], 13),
    (&[0x00, 0x01, 0x0A], 13),
];

pub const fn write(offset: u32, value: u32) -> [u32; 6] {
    [2, offset, value, 0, 0, 0]
}

/// Refused power-ups: 1, 14 to 17 and 2, the last for a fitted code that takes
/// more than is lent.
pub fn refused_power_ups(fitted: u32) -> [[u32; 6]; 6] {
    [
        [1, 16, 0, 0, 0, 0],
        [1, 0, 3, 0, 0, 0],
        [1, 0, 0, 3, 0, 0],
        [1, 0, 0, 0, 3, 0],
        [1, 0, 0, 0, 0, 4096],
        [1, fitted, 0, 0, 0, 0],
    ]
}

/// The session file of some events.
pub fn session(rows: &[[u32; 6]]) -> Vec<u8> {
    let mut file = vec![0; 1 + 9 * rows.len()];
    let written = write_session(rows.as_flattened(), &mut file, 0);
    assert_eq!(written.refusal, 0);
    file.truncate(written.place);
    file
}

/// The file is longer than `rehearse` reads.
#[track_caller]
pub fn too_long(file: &[u8], memory: &mut [u32]) {
    assert!(file.len() > 65_536);
    let mut out = Vec::new();
    list(file, memory, &mut out);
    assert_eq!(out, b"TOO LONG\n");
}
