//! A second, independent model of the output board, written from document 01
//! ("Build outline: the output board and its exact rules") and, where 01 is
//! silent, from the board's manual; of document 02 ("Further changes
//! requested") it has requests 2026-01 to 2026-07. Of these 2026-04 changes no
//! behaviour ("No answer changes."); the search in `clock.rs` is the one that it
//! asks for. The model is written to be read beside the documents: each rule
//! stands under a comment that quotes its sentence. READINGS.md lists the places
//! where a sentence had to be interpreted. `#[inline]` marks what every event of
//! a run or of a written session goes through, and `#[inline(always)]` what would
//! else be a call, since `list`, `volts` and `smallest_size` all run it.

#![forbid(unsafe_code)]

mod clock;
mod cutter;
mod event;
mod flags;
mod interrupt;
mod line;
mod listing;
mod queue;
mod rates;
mod record;
mod refuse;
mod registers;
mod rows;
mod run;
mod session;
mod sizes;
mod volts;
mod writer;

pub use cutter::cut;
pub use event::{step, Answer, Event};
pub use listing::{list, listing};
pub use rates::rates;
pub use record::Record;
pub use rows::rows_of;
pub use sizes::smallest_size;
pub use volts::{volts, Volts};
pub use writer::{write_session, Written};
