//! The interrupt request.

use crate::record::Record;

/// "Interrupt: conditions 1 calibrated, 2 empty, 3 low quarter, 4 high quarter,
/// 5 burst ready, 6 load ready, 7 not load ready." Selection 0 is the manual's
/// "Idle": it has no condition.
#[inline(always)]
fn condition(record: &Record) -> bool {
    match record.selection {
        1 => record.calibrated,
        2 => record.empty(),
        3 => record.low_quarter(),
        4 => record.high_quarter(),
        5 => record.burst_ready(),
        6 => record.load_ready(),
        7 => !record.load_ready(),
        _ => false,
    }
}

/// All that is asked of the record before an event.
pub(crate) struct Before {
    selection: u32,
    held: bool, // whether the selected condition was true
}

/// To be asked before the event, of a sound record.
#[inline(always)]
pub(crate) fn before(record: &Record) -> Before {
    Before {
        selection: record.selection,
        held: condition(record),
    }
}

/// "If an event leaves the selection unchanged, false to true sets the request
/// after all else; true to false clears it."
#[inline(always)]
pub(crate) fn after(before: &Before, record: &mut Record) {
    if before.selection != record.selection {
        return;
    }
    let was = before.held;
    let is = condition(record);
    if !was && is {
        record.request = true;
    }
    if was && !is {
        record.request = false;
    }
}
