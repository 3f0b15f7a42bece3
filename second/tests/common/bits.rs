//! Register bits that bench.rs, cutter.rs, high_quarter.rs, sizes.rs and volts.rs
//! use.

pub const EOF: u32 = 0x1_0000;
// BOR; the size code, D3..0, is 0 in all of these
pub const EXTERNAL: u32 = 1 << 4;
pub const SOFT_CLOCK: u32 = 1 << 7;
pub const CIRCULAR: u32 = 1 << 8;
// BCR
pub const BINARY: u32 = 1 << 4;
pub const CALIBRATE: u32 = 1 << 13;
pub const INITIALISE: u32 = 1 << 15;
