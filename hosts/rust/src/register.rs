//! The registers by the names of the board's manual: their offsets, their bits, and the fields of several bits, each a mask
//! and, where it does not begin at D00, a shift. hosts/c/nergutsai.h has the same names.
//!
//! r/w is read and written, r only read, w only written: such a bit reads 0.

/// 00h, the board control register: [`bcr`] has its bits.
pub const BCR: u32 = 0x00;
/// 04h: [`enable_channel`] has its bits.
pub const CHANNEL_SELECTION: u32 = 0x04;
/// 08h: the divisor, in [`SAMPLE_RATE_MASK`].
pub const SAMPLE_RATE: u32 = 0x08;
/// 0Ch, the buffer operations register: [`bor`] has its bits.
pub const BOR: u32 = 0x0C;
/// 10h, only read: [`options`] has its fields.
pub const FIRMWARE_AND_OPTIONS: u32 = 0x10;
/// 14h. It is not modelled: it reads 0 and cannot be written.
pub const AUTOCAL_VALUES: u32 = 0x14;
/// 18h. A write loads a value, of [`DATA_MASK`] and [`EOF`]; it reads 0.
pub const OUTPUT_DATA_BUFFER: u32 = 0x18;
/// 1Ch: [`adjustable_clock`] has its bits.
pub const ADJUSTABLE_CLOCK: u32 = 0x1C;

/// 04h, D00-D19 r/w: the bit of a channel, 0 to 19.
#[must_use]
pub const fn enable_channel(channel: u32) -> u32 {
    1 << channel
}

/// 08h, D00-D15 r/w: RATE 00-15, the divisor.
pub const SAMPLE_RATE_MASK: u32 = 0xFFFF;

/// 18h, D00-D15 w, and of a value in the sample memory: DATA 00-15.
pub const DATA_MASK: u32 = 0x0FFFF;
/// 18h, D16 w, and of a value in the sample memory: EOF FLAG, the last value of a frame.
pub const EOF: u32 = 0x10000;

/// The bits of 00h, the board control register.
pub mod bcr {
    /// D00 r/w: bursts are enabled.
    pub const BURST_ENABLED: u32 = 0x0001;
    /// D01 r: bursts are enabled, and none is in progress.
    pub const BURST_READY: u32 = 0x0002;
    /// D02 r/w: starts a burst; reads whether one that was started so is in progress.
    pub const BURST_TRIGGER: u32 = 0x0004;
    /// D03 r/w: remote ground sensing.
    pub const REMOTE_GROUND_SENSE: u32 = 0x0008;
    /// D04 r/w: data are offset binary; else two's complement.
    pub const OFFSET_BINARY: u32 = 0x0010;
    /// D05 r/w: clock and trigger are differential signals.
    pub const DIFFERENTIAL_SYNC_IO: u32 = 0x0020;
    /// D06 r/w: no outside trigger starts a burst.
    pub const DISABLE_EXT_BURST_TRIG: u32 = 0x0040;
    /// D07 r/w: a clock serves all active channels at once; else one.
    pub const SIMULTANEOUS_OUTPUTS: u32 = 0x0080;
    /// D08-D10 r/w: INTERRUPT A0-A2, one of [`super::interrupt`].
    pub const INTERRUPT_MASK: u32 = 0x0700;
    /// How far D08-D10 stand from D00.
    pub const INTERRUPT_SHIFT: u32 = 8;
    /// D11 r/w: an interrupt is requested; written as 0 it clears the request.
    pub const INTERRUPT_REQUEST_FLAG: u32 = 0x0800;
    /// D13 r/w: starts a calibration; reads whether one runs.
    pub const AUTOCALIBRATION: u32 = 0x2000;
    /// D14 r: the last calibration failed.
    pub const AUTOCAL_STATUS_FLAG: u32 = 0x4000;
    /// D15 w: initialises the board.
    pub const INITIALIZE: u32 = 0x8000;
}

/// The interrupt selections of BCR: which condition requests an interrupt.
pub mod interrupt {
    /// None.
    pub const IDLE: u32 = 0;
    /// A calibration has ended.
    pub const AUTOCAL_COMPLETED: u32 = 1;
    /// The buffer is empty.
    pub const BUFFER_EMPTY: u32 = 2;
    /// The buffer is less than a quarter full.
    pub const BUFFER_LOW_QUARTER: u32 = 3;
    /// The buffer is at least three quarters full.
    pub const BUFFER_HIGH_QUARTER: u32 = 4;
    /// Bursts are enabled, and none is in progress.
    pub const BURST_READY: u32 = 5;
    /// The buffer is not closed.
    pub const LOAD_READY: u32 = 6;
    /// The buffer is closed.
    pub const END_LOAD_READY: u32 = 7;
}

/// The bits of 0Ch, the buffer operations register.
pub mod bor {
    /// D00-D03 r/w: the size code; the active buffer holds 8·2^m values, m being the lesser of it and the fitted code.
    pub const SIZE_MASK: u32 = 0x0000F;
    /// D04 r/w: outside and software clocks are accepted, and no ticks of the rate generator; with
    /// [`super::adjustable_clock::SELECT_ALTERNATE_REFERENCE`] set it is the ticks in either case.
    pub const EXTERNAL_CLOCK: u32 = 0x00010;
    /// D05 r/w: clocking is enabled.
    pub const ENABLE_CLOCK: u32 = 0x00020;
    /// D06 r: EXTERNAL CLOCK is set, and the board is neither settling nor calibrating.
    pub const CLOCK_READY: u32 = 0x00040;
    /// D07 w: one software clock.
    pub const SW_CLOCK: u32 = 0x00080;
    /// D08 r/w: the buffer is circular.
    pub const CIRCULAR_BUFFER: u32 = 0x00100;
    /// D09 r/w: asks to load a circular buffer.
    pub const LOAD_REQUEST: u32 = 0x00200;
    /// D10 r: the buffer is not closed.
    pub const LOAD_READY: u32 = 0x00400;
    /// D11 w: empties the buffer.
    pub const CLEAR_BUFFER: u32 = 0x00800;
    /// D12 r: the buffer is empty.
    pub const BUFFER_EMPTY: u32 = 0x01000;
    /// D13 r: the buffer is less than a quarter full.
    pub const BUFFER_LOW_QUARTER: u32 = 0x02000;
    /// D14 r: the buffer is at least three quarters full.
    pub const BUFFER_HIGH_QUARTER: u32 = 0x04000;
    /// D15 r: the buffer is full.
    pub const BUFFER_FULL: u32 = 0x08000;
    /// D16 r/w: a value was lost to a full buffer; written as 0 it is cleared.
    pub const BUFFER_OVERFLOW: u32 = 0x10000;
    /// D17 r/w: a value was lost to a closed buffer; written as 0 it is cleared.
    pub const FRAME_OVERFLOW: u32 = 0x20000;
}

/// The fields of 10h, firmware and options: what the power-up said.
pub mod options {
    /// D00-D11 r: the firmware number.
    pub const FIRMWARE_MASK: u32 = 0x00_0FFF;
    /// D16-D17 r: the range code; 0, 1, 2 are 2.5, 5, 10 V.
    pub const RANGE_MASK: u32 = 0x03_0000;
    /// How far D16-D17 stand from D00.
    pub const RANGE_SHIFT: u32 = 16;
    /// D18-D19 r: the filter code; 0, 1, 2 are none, 10 kHz, 100 kHz.
    pub const FILTER_MASK: u32 = 0x0C_0000;
    /// How far D18-D19 stand from D00.
    pub const FILTER_SHIFT: u32 = 18;
    /// D20-D21 r: the kit code; 0, 1, 2 are 6, 12, 20 channels.
    pub const KIT_MASK: u32 = 0x30_0000;
    /// How far D20-D21 stand from D00.
    pub const KIT_SHIFT: u32 = 20;
}

/// The bits of 1Ch, the adjustable clock.
pub mod adjustable_clock {
    /// D00-D08 r/w: CLOCK RATE (Nclk).
    pub const NCLK_MASK: u32 = 0x1FF;
    /// D09 r/w: the rate generator runs from the adjustable reference.
    pub const SELECT_ALTERNATE_REFERENCE: u32 = 0x200;
}
