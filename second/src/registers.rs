//! Reading and writing the eight registers.

use crate::record::Record;
use crate::{clock, queue};

/// Load fates: "(0 none, 1 stored, 2 lost to full, 3 lost to closed)".
const NO_LOAD: u32 = 0;
const STORED: u32 = 1;
pub(crate) const LOST_TO_FULL: u32 = 2;
const LOST_TO_CLOSED: u32 = 3;

/// Bit Dn of a written value.
pub(crate) fn bit(value: u32, n: u32) -> bool {
    (value >> n) & 1 == 1
}

/// A flag at bit Dn of a read value.
fn at(flag: bool, n: u32) -> u32 {
    (flag as u32) << n
}

/// The value read. The offset is one of the eight.
#[inline(always)]
pub(crate) fn read(record: &Record, offset: u32) -> u32 {
    match offset {
        0x00 => read_bcr(record),
        0x04 => record.mask,
        // "08h keeps 16 bits." and "Reserved bits read 0"
        0x08 => record.divisor & 0xFFFF,
        0x0C => read_bor(record),
        // "10h is firmware in D11..0, range D17..16, filter D19..18, kit
        // D21..20."
        0x10 => record.firmware | (record.range << 16) | (record.filter << 18) | (record.kit << 20),
        // "14h reads 0"
        0x14 => 0,
        // "18h reads 0"
        0x18 => 0,
        // "1Ch keeps Nclk (D8..0) and ALT (D9)"
        0x1C => record.nclk | at(record.alt, 9),
        _ => unreachable!("refused with 4"),
    }
}

/// "BCR D15 and BOR D7 and D11 read 0." "Reserved bits read 0 and are ignored,
/// BCR D12 too."
fn read_bcr(record: &Record) -> u32 {
    at(record.bursts, 0)
        // "D1 = enabled and no burst"
        | at(record.burst_ready(), 1)
        // "D2 = software-started burst"
        | at(record.software, 2)
        | at(record.ground, 3)
        | at(record.binary, 4)
        | at(record.differential, 5)
        | at(record.barred, 6)
        | at(record.simultaneous, 7)
        | (record.selection << 8)
        | at(record.request, 11)
        // "D13 = calibrating"
        | at(record.calibrating, 13)
        | at(record.cal_failed, 14)
}

/// "BCR D15 and BOR D7 and D11 read 0."
fn read_bor(record: &Record) -> u32 {
    record.code
        | at(record.external, 4)
        | at(record.enabled, 5)
        // "D6 reads EXTERNAL and neither settling nor calibrating."
        | at(record.clock_ready(), 6)
        | at(record.circular, 8)
        // "D9 reads pending or opened."
        | at(record.pending || record.opened, 9)
        // "D10 reads "not closed""
        | at(record.load_ready(), 10)
        | at(record.empty(), 12)
        | at(record.low_quarter(), 13)
        | at(record.high_quarter(), 14)
        | at(record.full(), 15)
        | at(record.buffer_overflow, 16)
        | at(record.frame_overflow, 17)
}

/// A write; answers the values moved and the load fate. The offset is one of
/// the eight but 10h and 14h, and no calibration runs.
#[inline(always)]
pub(crate) fn write(
    record: &mut Record,
    memory: &mut [u32],
    offset: u32,
    value: u32,
) -> (u32, u32) {
    match offset {
        0x00 => {
            write_bcr(record, value);
            (0, NO_LOAD)
        }
        0x04 => {
            // "04h keeps the bits of fitted channels and sets the cursor to 0."
            record.mask = value & record.fitted_channels();
            record.cursor = 0;
            (0, NO_LOAD)
        }
        0x08 => {
            // "08h keeps 16 bits."
            record.divisor = value & 0xFFFF;
            (0, NO_LOAD)
        }
        0x0C => (write_bor(record, memory, value), NO_LOAD),
        0x18 => (0, load(record, memory, value)),
        0x1C => {
            write_reference(record, value);
            (0, NO_LOAD)
        }
        _ => unreachable!("refused with 4 or 5"),
    }
}

/// "BCR write, in order:"
fn write_bcr(record: &mut Record, value: u32) {
    // "A BCR write with D15 set initialises and ignores its other bits."
    if bit(value, 15) {
        record.initialise();
        return;
    }
    let old_simultaneous = record.simultaneous;
    // "store D0, D3 to D10"
    record.bursts = bit(value, 0);
    record.ground = bit(value, 3);
    record.binary = bit(value, 4);
    record.differential = bit(value, 5);
    record.barred = bit(value, 6);
    record.simultaneous = bit(value, 7);
    record.selection = (value >> 8) & 7;
    // "D11 = 0 clears the request, 1 leaves it"
    if !bit(value, 11) {
        record.request = false;
    }
    // "D0 = 0 ends a burst"
    if !bit(value, 0) {
        record.end_burst();
    }
    // "changed D7 sets the cursor to 0"
    if record.simultaneous != old_simultaneous {
        record.cursor = 0;
    }
    // "D2 = 1 with D0 set and no burst starts one"
    if bit(value, 2) && record.bursts && !record.burst {
        record.burst = true;
        record.software = true;
    }
    // "D13 = 1 starts calibration, clearing D14 and "calibrated"."
    if bit(value, 13) {
        record.calibrating = true;
        record.cal_failed = false;
        record.calibrated = false;
    }
}

/// "BOR write, in order:" Answers the values moved by a software clock.
fn write_bor(record: &mut Record, memory: &mut [u32], value: u32) -> u32 {
    // "store D0 to D5 and D8"
    record.code = value & 0xF;
    record.external = bit(value, 4);
    record.enabled = bit(value, 5);
    record.circular = bit(value, 8);
    // "D16, D17 = 0 clear those flags, 1 leaves them"
    if !bit(value, 16) {
        record.buffer_overflow = false;
    }
    if !bit(value, 17) {
        record.frame_overflow = false;
    }
    // "D8 = 0 drops pending and opened"
    if !bit(value, 8) {
        record.pending = false;
        record.opened = false;
    }
    // "D11 = 1 empties, ends a burst, drops pending and opened and sets the
    // cursor to 0"
    if bit(value, 11) {
        record.empty_buffer();
        record.end_burst();
        record.pending = false;
        record.opened = false;
        record.cursor = 0;
    }
    // "if circular and not opened, pending = D9"
    if record.circular && !record.opened {
        record.pending = bit(value, 9);
    }
    // "D7 = 1 tries a software clock."
    if bit(value, 7) {
        return clock::outside(record, memory);
    }
    0
}

/// "A write to 18h: if closed, FRAME OVERFLOW (D17) is set and the value lost;
/// else if full, BUFFER OVERFLOW (D16); else it is stored."
fn load(record: &mut Record, memory: &mut [u32], value: u32) -> u32 {
    if record.closed() {
        record.frame_overflow = true;
        LOST_TO_CLOSED
    } else if record.full() {
        record.buffer_overflow = true;
        LOST_TO_FULL
    } else {
        queue::store(record, memory, value);
        STORED
    }
}

/// "1Ch keeps Nclk (D8..0) and ALT (D9); a changed Nclk with EXTERNAL CLOCK set
/// starts settling".
fn write_reference(record: &mut Record, value: u32) {
    let old_nclk = record.nclk;
    record.nclk = value & 0x1FF;
    record.alt = bit(value, 9);
    if record.nclk != old_nclk && record.external {
        record.settling = true;
    }
}
