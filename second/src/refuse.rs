//! The refusal numbers, those of events each "given exactly when" the table
//! says, and the order of these. 1 and 14 to 17, the power-up settings, are as
//! request 2026-02 has them; 18 is that of request 2026-03 and 19 that of
//! request 2026-05; 20, 21, 30 and 32 are those of request 2026-01, 22 and 23
//! those of request 2026-07.

use crate::event::Event;
use crate::record::{depth_of, Record, LARGEST_FIRMWARE, LARGEST_FITTED, LARGEST_OPTION};

/// "0 | done"
pub(crate) const DONE: u32 = 0;
/// "1 now means the fitted code only"
pub(crate) const FITTED: u32 = 1;
/// "2 | sample memory shorter than the depth"
pub(crate) const MEMORY: u32 = 2;
/// "3 | record not sound"
pub(crate) const UNSOUND: u32 = 3;
/// "4 | offset other than 00, 04, 08, 0C, 10, 14, 18, 1C (hex)"
pub(crate) const OFFSET: u32 = 4;
/// "5 | write to 10h or 14h"
pub(crate) const READ_ONLY: u32 = 5;
/// "6 | any other write while calibrating"
pub(crate) const CALIBRATING: u32 = 6;
/// "7 | calibration end while none runs, or settled while not settling"
pub(crate) const NOT_RUNNING: u32 = 7;
/// "8 | rate asked with divisor 0"
pub(crate) const DIVISOR: u32 = 8;
/// "9 | rate asked with EXTERNAL CLOCK set"
pub(crate) const EXTERNAL: u32 = 9;
/// "10 | session file empty or its first byte not 01"
pub(crate) const NO_SESSION: u32 = 10;
/// "11 | file ends inside a record"
pub(crate) const CUT: u32 = 11;
/// "12 | record length wrong for its kind, or 0"
pub(crate) const LENGTH: u32 = 12;
/// "13 | unknown record kind"; the writer's "13 an unknown kind"
pub(crate) const KIND: u32 = 13;
/// "14 range"
pub(crate) const RANGE: u32 = 14;
/// "15 filter"
pub(crate) const FILTER: u32 = 15;
/// "16 kit"
pub(crate) const KIT: u32 = 16;
/// "17 firmware"
pub(crate) const FIRMWARE: u32 = 17;
/// "18 when the session has no accepted power-up"
pub(crate) const NO_POWER_UP: u32 = 18;
/// "19 exactly when none of the sixteen codes plays without loss"
pub(crate) const NO_SIZE: u32 = 19;
/// "20 a place past the output's end"
pub(crate) const PLACE: u32 = 20;
/// "21 when the whole session doesn't fit"
pub(crate) const ROOM: u32 = 21;
/// "22 channels in a group not 1 to 20, or length no whole number of groups"
pub(crate) const GROUPS: u32 = 22;
/// "23 empty choice, a channel outside the group, or groups out of range or
/// reversed"
pub(crate) const CHOICE: u32 = 23;
/// "30 a field too large for its bytes or not 0 where the kind has none"
pub(crate) const FIELD: u32 = 30;
/// "32 a slice not of whole events"
pub(crate) const ROWS: u32 = 32;

/// The refusal of an event, or DONE. `length` is the memory's length.
#[inline(always)]
pub(crate) fn refusal(record: &Record, length: usize, event: &Event) -> u32 {
    match *event {
        // "checked in that order, then 2"; "(any old record is accepted)"
        Event::PowerUp {
            fitted,
            range,
            filter,
            kit,
            firmware,
        } => {
            let setting = first_bad_setting(fitted, range, filter, kit, firmware);
            if setting != DONE {
                return setting;
            }
            if length < depth_of(fitted) as usize {
                return MEMORY;
            }
            DONE
        }
        // "other events 3, 2, 4, 5, 6"
        Event::Write { offset, .. } => {
            let shared = record_and_memory(record, length);
            if shared != DONE {
                return shared;
            }
            if !is_register(offset) {
                return OFFSET;
            }
            if offset == 0x10 || offset == 0x14 {
                return READ_ONLY;
            }
            if record.calibrating {
                return CALIBRATING;
            }
            DONE
        }
        // The same order; 5 and 6 are about writes only.
        Event::Read { offset } => {
            let shared = record_and_memory(record, length);
            if shared != DONE {
                return shared;
            }
            if !is_register(offset) {
                return OFFSET;
            }
            DONE
        }
        // "Clocks and triggers that are not accepted answer 0 and change
        // nothing.": no refusal of their own.
        Event::Tick | Event::Outside | Event::Trigger => record_and_memory(record, length),
        // "or 3, 2, 7": "calibration end while none runs"
        Event::Passed | Event::Failed => {
            let shared = record_and_memory(record, length);
            if shared != DONE {
                return shared;
            }
            if !record.calibrating {
                return NOT_RUNNING;
            }
            DONE
        }
        // "or 3, 2, 7": "or settled while not settling"
        Event::Settled => {
            let shared = record_and_memory(record, length);
            if shared != DONE {
                return shared;
            }
            if !record.settling {
                return NOT_RUNNING;
            }
            DONE
        }
    }
}

/// The number of the first bad power-up setting, or DONE. "1 now means the
/// fitted code only; 14 range, 15 filter, 16 kit, 17 firmware; checked in that
/// order"
fn first_bad_setting(fitted: u32, range: u32, filter: u32, kit: u32, firmware: u32) -> u32 {
    if fitted > LARGEST_FITTED {
        return FITTED;
    }
    if range > LARGEST_OPTION {
        return RANGE;
    }
    if filter > LARGEST_OPTION {
        return FILTER;
    }
    if kit > LARGEST_OPTION {
        return KIT;
    }
    if firmware > LARGEST_FIRMWARE {
        return FIRMWARE;
    }
    DONE
}

/// "3, 2": first the record, then the memory.
fn record_and_memory(record: &Record, length: usize) -> u32 {
    if !record.is_sound() {
        return UNSOUND;
    }
    if length < record.depth() as usize {
        return MEMORY;
    }
    DONE
}

/// "00, 04, 08, 0C, 10, 14, 18, 1C (hex)"
fn is_register(offset: u32) -> bool {
    matches!(
        offset,
        0x00 | 0x04 | 0x08 | 0x0C | 0x10 | 0x14 | 0x18 | 0x1C
    )
}
