//! Register bits that only bench.rs, cutter.rs, high_quarter.rs and sizes.rs use.

// BOR; the size code, D3..0, is 0 in all of these
pub const ENABLED: u32 = 1 << 5;
pub const LOAD_REQUEST: u32 = 1 << 9;
pub const CLEAR: u32 = 1 << 11;
// BCR
pub const BURSTS: u32 = 1 << 0;
