//! Events as rows: "six numbers each (kind, then fields)", as request 2026-01
//! has them. The fields stand in the session file's order, and the numbers that
//! a kind has no field for are 0.

use crate::event::Event;
use crate::session::each_event;

/// "six numbers each"
pub(crate) const ROW: usize = 6;

/// The whole rows of a slice.
#[inline]
pub(crate) fn whole(rows: &[u32]) -> impl Iterator<Item = &[u32; ROW]> {
    rows.chunks_exact(ROW).filter_map(|row| row.first_chunk())
}

/// "Reading back gives the events": those of a version 1 session file as rows,
/// or its file refusal.
pub fn rows_of(file: &[u8]) -> Result<Vec<u32>, u32> {
    let mut rows = Vec::new();
    match each_event(file, |event| rows.extend_from_slice(&row(event))) {
        Ok(()) => Ok(rows),
        Err((refusal, _)) => Err(refusal),
    }
}

/// The row of an event. "Kinds and lengths: 1 power-up (d, range, filter, kit,
/// firmware in two bytes) 7; 2 write (offset, value in four) 6; 3 read (offset) 2;
/// 4 tick, 5 outside clock, 6 trigger, 7 calibration passed, 8 failed, 9 settled,
/// 1 each."
#[inline]
pub(crate) fn row(event: &Event) -> [u32; ROW] {
    match *event {
        Event::PowerUp {
            fitted,
            range,
            filter,
            kit,
            firmware,
        } => [1, fitted, range, filter, kit, firmware],
        Event::Write { offset, value } => [2, offset, value, 0, 0, 0],
        Event::Read { offset } => [3, offset, 0, 0, 0, 0],
        Event::Tick => [4, 0, 0, 0, 0, 0],
        Event::Outside => [5, 0, 0, 0, 0, 0],
        Event::Trigger => [6, 0, 0, 0, 0, 0],
        Event::Passed => [7, 0, 0, 0, 0, 0],
        Event::Failed => [8, 0, 0, 0, 0, 0],
        Event::Settled => [9, 0, 0, 0, 0, 0],
    }
}
