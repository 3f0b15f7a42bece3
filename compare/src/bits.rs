//! Bits of the two control registers.

/// BCR: bursts enabled; software trigger; offset binary; simultaneous mode;
/// calibration; initialise.
pub const BURSTS_BIT: u32 = 1;
pub const SOFTWARE_TRIGGER: u32 = 1 << 2;
pub const BINARY_BIT: u32 = 1 << 4;
pub const SIMULTANEOUS_BIT: u32 = 1 << 7;
pub const CALIBRATE: u32 = 1 << 13;
pub const INITIALISE: u32 = 1 << 15;

/// BOR: the size code; EXTERNAL CLOCK; clocking enabled; software clock;
/// circular; load request; clear.
pub const CODE_BITS: u32 = 0xF;
pub const EXTERNAL_BIT: u32 = 1 << 4;
pub const ENABLED_BIT: u32 = 1 << 5;
pub const SOFTWARE_CLOCK: u32 = 1 << 7;
pub const CIRCULAR_BIT: u32 = 1 << 8;
pub const REQUEST_BIT: u32 = 1 << 9;
pub const CLEAR: u32 = 1 << 11;
/// Those that a write to BOR does not look at.
pub const UNUSED_BOR: u32 = 0xFFFC_F440;
